" Syntax of documents for oa: texts, settings, scripts and schedules. Tested, not proved.
if exists("b:current_syntax")
  finish
endif
syntax case match
syntax match oaComment "^\s*#.*$"
syntax match oaLabel "^\s*[a-z][a-z0-9_]*:\s*$"
syntax match oaNumber "\<\(0\|[1-9][0-9]*\)\>"
syntax match oaNode "@[0-9]\+"
syntax match oaNumbers "\<n[0-7]\>"
syntax match oaReferences "\<r[0-7]\>"
syntax match oaDeclaration "^\s*\(oa\|oat\|kind\|field\|nodes\|node\|op\|use\)\>"
syntax match oaDeclaration "^\s*\(gen\|wrap\)\s*$"
syntax match oaType "\<\(num\|ref\|null\)\>"
syntax match oaLocal "^\s*\(set\|mov\|add\|sub\|rem\|null\|mark\|unmark\)\>"
syntax match oaAccess "^\s*\(root\|pick\|load\|new\|put\|cas\|casroot\|with\|withroot\)\>"
syntax match oaJump "^\s*\(jump\|ifeq\|ifless\|ifmarked\)\>"
syntax match oaEnd "^\s*\(commit\|return\|returnnone\|again\)\>"
syntax match oaBarrier "^\s*\(chk\|grd\)\>"
syntax match oaRetire "\<retire\>"
syntax match oaSetting "^\s*\(slots\|phases\|fuel\|script\|schedule\|step\|upto\)\>"
syntax match oaEvent "^\s*\(begin\|access\|restart\|full\|reply\)\ze\s\+[0-9]"
syntax match oaEvent "^\s*\(events\|replies\)\s*$"
syntax match oaSetting "\<\(check\|exchange\)\ze\s\+[0-9]"
highlight default link oaComment Comment
highlight default link oaLabel Label
highlight default link oaNumber Number
highlight default link oaNode Constant
highlight default link oaNumbers Identifier
highlight default link oaReferences Special
highlight default link oaDeclaration Structure
highlight default link oaType Type
highlight default link oaLocal Operator
highlight default link oaAccess Statement
highlight default link oaJump Conditional
highlight default link oaEnd Keyword
highlight default link oaBarrier PreProc
highlight default link oaRetire Exception
highlight default link oaSetting Define
highlight default link oaEvent Statement
let b:current_syntax = "oa"
