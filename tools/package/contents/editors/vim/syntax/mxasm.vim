" Texts of mx's assembler. See docs/REFERENCE.md, Assembler.
if exists("b:current_syntax") | finish | endif
syn case match
syn match mxComment ";.*$" contains=mxTodo
syn keyword mxTodo TODO contained
syn match mxLabel "^\s*[A-Za-z_][A-Za-z0-9_]*:"
syn match mxDirective "\.\(text\|data[124]\?\|bss\|ascii\|space\|sep\|entry\|stack\)\>"
syn match mxNumber "\<\(0x[0-9a-fA-F]\+\|[0-9]\+\)\>"
syn region mxText start=+"+ skip=+\\"+ end=+"+ contains=mxEscape
syn match mxEscape "\\[n0\"\\]" contained
syn keyword mxRegister eax ecx edx ebx esp ebp esi edi ax cx dx bx sp bp si di al cl dl bl ah ch dh bh
syn keyword mxSize byte word dword short
syn keyword mxWord mov add or adc sbb and sub xor cmp test xchg inc dec not neg mul div idiv imul
syn keyword mxWord shl shr sar rol ror shld shrd bt bts btr btc bsf bsr lea movzx movsx push pop
syn keyword mxWord pushad popad pushfd popfd leave cbw cwde cwd cdq lahf sahf cmc clc stc cld std nop
syn keyword mxWord movsb movsw movsd cmpsb cmpsw cmpsd stosb stosw stosd lodsb lodsw lodsd scasb scasw scasd rep repe repne
syn match mxWord "\<set\(n\?[obszplc]\|n\?[bl]e\)\>"
syn match mxJump "\<j\(n\?[obszpl]\|n\?[bl]e\|mp\|ecxz\)\>"
syn keyword mxJump call ret loop loope loopne int3 into hlt cli sti in out
syn match mxTrap "\<int\>\(\s\+33\>\)\?"
hi def link mxComment Comment
hi def link mxTodo Todo
hi def link mxLabel Function
hi def link mxDirective PreProc
hi def link mxNumber Number
hi def link mxText String
hi def link mxEscape Special
hi def link mxRegister Identifier
hi def link mxSize Type
hi def link mxWord Statement
hi def link mxJump Conditional
hi def link mxTrap Exception
let b:current_syntax = "mxasm"
