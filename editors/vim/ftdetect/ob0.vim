" Oberon-0. Other languages also use the endings .mod and .Mod, so such a file is Oberon-0 only if its first word is MODULE, in
" any case, whatever follows: the server reports a slip there. (In Go's files a path follows `module`.) With let g:ob0_mod = 0 no
" such file is Oberon-0. Vim's own rule for them uses setf, which keeps an earlier choice: hence setlocal.
" A new file has no first word yet, so it is also examined when it is saved.
function! s:BeginsWithModule() abort
  let l:text = join(getline(1, 100), "\n")
  let l:at = 0
  let l:depth = 0
  " (white space and comments, which nest, may stand before the first word)
  while 1
    if l:depth
      let [l:pair, l:from, l:to] = matchstrpos(l:text, '(\*\|\*)', l:at)
      if l:from < 0 | return 0 | endif
      let l:depth += l:pair ==# '(*' ? 1 : -1
      let l:at = l:to
    else
      let l:at = matchend(l:text, '^\_s*', l:at)
      if l:text[l:at : l:at + 1] !=# '(*' | break | endif
      let l:depth = 1
      let l:at += 2
    endif
  endwhile
  return l:text[l:at :] =~# '^MODULE\w\@!' || l:text[l:at :] =~? '^MODULE\w\@!\%(\s\+\S*[./]\w\)\@!'
endfunction

augroup filetypedetect
  autocmd BufNewFile,BufRead *.ob0 setlocal filetype=ob0
  autocmd BufNewFile,BufRead,BufWritePost *.mod,*.Mod
        \ if &filetype !=# 'ob0' && get(g:, 'ob0_mod', 1) && expand('<afile>:t') !=# 'go.mod' && s:BeginsWithModule() |
        \   setlocal filetype=ob0 |
        \ endif
augroup END
