" A text for mx's assembler has one of its directives or its trap, and no % before a register as GNU's has.
function! s:detect()
  let lines = getline(1, 200)
  if match(lines, '^\s*\(\w\+:\)\?\s*\(\.sep\|\.data[124]\|\.stack\|\.entry\|int\s\+33\)\>') >= 0 && match(lines, '%e\?[abcds][xpi]\>') < 0
    set filetype=mxasm
  endif
endfunction
autocmd BufNewFile,BufRead *.s call s:detect()
autocmd BufNewFile,BufRead *.config if match(getline(1, 20), '^cpus ') >= 0 | set filetype=mxconf | endif
