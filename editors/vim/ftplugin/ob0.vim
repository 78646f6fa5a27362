" Oberon-0: comments, words, the width of a level (which clients send when they ask for a layout), :make and :Ob0Run
if exists('b:did_ftplugin') | finish | endif
let b:did_ftplugin = 1

setlocal commentstring=(*\ %s\ *) comments=s1:(*,mb:*,ex:*) iskeyword=a-z,A-Z,48-57 suffixesadd=.ob0,.mod,.Mod
setlocal expandtab shiftwidth=2 softtabstop=2
let b:match_words = '\<\%(MODULE\|PROCEDURE\|IF\|WHILE\|RECORD\)\>:\<\%(BEGIN\|THEN\|ELSIF\|ELSE\|DO\)\>:\<END\>,\<REPEAT\>:\<UNTIL\>'
compiler ob0

" (the program reads the file, so :make saves the buffer first)
augroup ob0_make
  autocmd!
  autocmd QuickFixCmdPre make,lmake if get(b:, 'current_compiler', '') ==# 'ob0' && expand('%') !=# '' | silent update | endif
augroup END

" What the program finds wrong with a file, as a list for :clist.
function! s:Errors(program, file) abort
  let l:found = []
  for l:line in systemlist(shellescape(a:program) . ' check ' . shellescape(a:file))
    let l:parts = matchlist(l:line, '^\(\d\+\):\(\d\+\): \(.*\)')
    if len(l:parts)
      call add(l:found, {'filename': a:file, 'lnum': l:parts[1] + 1, 'col': l:parts[2] + 1, 'text': l:parts[3]})
    endif
  endfor
  return l:found
endfunction

" :Ob0Run [FILE] saves the buffer and runs its module: in a terminal, in which one types its numbers (Ctrl-D at the start of a
" line ends them), or on a file of numbers. The errors of a module that can't be run are listed as :make lists them.
function! s:Run(input) abort
  let l:program = get(g:, 'ob0_program', 'ob0')
  if !executable(l:program)
    echohl ErrorMsg | echomsg 'There is no program ' . l:program . ': set g:ob0_program to its path' | echohl None
    return
  endif
  if expand('%') ==# ''
    echohl ErrorMsg | echomsg 'This buffer has no file: save it first' | echohl None
    return
  endif
  silent update
  let l:errors = s:Errors(l:program, expand('%:p'))
  if len(l:errors)
    call setqflist(l:errors)
    let l:more = len(l:errors) > 1 ? ' (and ' . (len(l:errors) - 1) . ' more: :clist)' : ''
    echohl ErrorMsg | echomsg printf('line %d, column %d: %s', l:errors[0].lnum, l:errors[0].col, l:errors[0].text) . l:more | echohl None
    return
  endif
  let l:words = [l:program, 'run', expand('%:p')]
  if a:input !=# ''
    echo system(join(map(l:words, 'shellescape(v:val)')) . ' < ' . shellescape(a:input))
    return
  endif
  if has('nvim')
    new
    call termopen(l:words)
    startinsert
  else
    call term_start(l:words)
  endif
  echo 'Type numbers; Ctrl-D at the start of a line ends them'
endfunction
command! -buffer -nargs=? -complete=file Ob0Run call s:Run(<q-args>)

let b:undo_ftplugin = 'setlocal commentstring< comments< iskeyword< suffixesadd< expandtab< shiftwidth< softtabstop< makeprg< errorformat<'
      \ . ' | unlet! b:match_words b:current_compiler | delcommand -buffer Ob0Run'
