" Texts for oa, with or without labels, and targets.
autocmd BufNewFile,BufRead *.oa,*.oal,*.oat setfiletype oa
