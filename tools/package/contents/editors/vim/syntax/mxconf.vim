" Configurations of mx. See docs/REFERENCE.md, Configuration.
if exists("b:current_syntax") | finish | endif
syn match mxComment "#.*$"
syn keyword mxItem cpus log rules
syn keyword mxService service
syn keyword mxOf traps send calls level best quantum restarts
syn match mxNumber "\<[0-9a-f]\+\>"
hi def link mxComment Comment
hi def link mxItem Statement
hi def link mxService Function
hi def link mxOf Type
hi def link mxNumber Number
let b:current_syntax = "mxconf"
