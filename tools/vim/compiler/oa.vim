" :compiler oa, then :make. What `oa check` refuses and what oa-lint warns of stand in the quickfix list.
if exists("current_compiler")
  finish
endif
let current_compiler = "oa"
CompilerSet makeprg=oa-lint\ --oa\ oa\ %:S
CompilerSet errorformat=%f:%l:\ %trror:\ %m,%f:%l:\ %tarning:\ %m
