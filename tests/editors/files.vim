" What Vim's files do without a server: file types, colours, :make, :Ob0Run, indentation, matchit. The findings go to
" OB0_REPORT, as JSON.
set nomore shortmess+=aoOtT cmdheight=5 noswapfile
let s:found = {'types': [], 'colours': [], 'faults': [], 'indented': []}
function! s:Open(name) abort
  execute 'edit!' fnameescape($OB0_WORK . '/' . a:name)
endfunction
" Waits until the terminal of this buffer shows a text, and says whether it came.
function! s:Shows(buffer, text) abort
  for s:step in range(6000)
    if join(getbufline(a:buffer, 1, '$'), ' ') =~# a:text | return 1 | endif
    sleep 50m
  endfor
  return 0
endfunction
function! s:Type(buffer, keys) abort
  if has('nvim')
    call chansend(getbufvar(a:buffer, 'terminal_job_id'), a:keys)
  else
    call term_sendkeys(a:buffer, a:keys)
  endif
endfunction
try
  for s:name in json_decode($OB0_FILES)
    call s:Open(s:name)
    call add(s:found.types, &filetype)
  endfor
  call s:Open('sample.mod')
  for [s:line, s:word, s:name] in json_decode($OB0_COLOURS)
    call add(s:found.colours, synIDattr(synID(s:line, stridx(getline(s:line), s:word) + 1, 1), 'name'))
  endfor
  let s:found.commented = substitute(&commentstring, '%s', 'x := 1', '')
  call s:Open('faulty.ob0')
  let s:found.refused = trim(execute('Ob0Run'))
  " (what is checked is what the buffer has, saved or not)
  call setline(2, 'BEGIN  y := 1 END M.')
  silent! make!
  let s:found.faults = map(filter(getqflist(), 'v:val.valid'), '[v:val.lnum, v:val.col, v:val.text]')
  " (a new file has no first word before it is saved)
  call s:Open('new.mod')
  call setline(1, ['MODULE N;', 'VAR x: INTEGER;', 'BEGIN Read(x); Write(x + 1) END N.'])
  let s:found.new = [&filetype ==# 'ob0']
  silent write
  call add(s:found.new, &filetype ==# 'ob0')
  " (what runs is what the buffer has, saved or not)
  call setline(3, 'BEGIN Read(x); Write(x + 2) END N.')
  call writefile(['40'], $OB0_WORK . '/numbers')
  let s:found.ran = trim(split(execute('Ob0Run ' . fnameescape($OB0_WORK . '/numbers')), "\n")[-1])
  let g:ob0_program = 'no-such-program'
  let s:found.lacking = trim(execute('Ob0Run'))
  unlet g:ob0_program
  call setline(3, 'BEGIN Read(x); Write(x + 3) END N.')
  silent Ob0Run
  let s:terminal = bufnr('%')
  let s:found.terminal = [s:Shows(s:terminal, 'Ctrl-D')]
  call s:Type(s:terminal, "40\n\<C-D>")
  call add(s:found.terminal, s:Shows(s:terminal, ' 43'))
  execute 'bwipeout!' s:terminal
  " (lines below a heading whatever is open above it)
  call s:Open('broken.mod')
  let s:found.broken = []
  for v:lnum in range(7, line('$'))
    if Ob0Indent() != indent(v:lnum) | call add(s:found.broken, getline(v:lnum)) | endif
  endfor
  " (a record over several lines, and what belongs to an END)
  call s:Open('record.mod')
  let s:before = getline(1, '$')
  silent %s/^\s*//
  silent normal! gg=G
  let s:found.record = getline(1, '$') ==# s:before ? [] : getline(1, '$')
  silent! packadd matchit
  call cursor(line('$'), 1)
  normal %
  let s:found.matched = line('.')
  for s:name in json_decode($OB0_EXAMPLES)
    call s:Open(s:name)
    let s:before = getline(1, '$')
    silent %s/^\s*//
    silent normal! gg=G
    if getline(1, '$') !=# s:before
      let s:at = filter(range(len(s:before)), 'getline(v:val + 1) !=# s:before[v:val]')[0]
      call add(s:found.indented, [s:name, s:at + 1, getline(s:at + 1), s:before[s:at]])
    endif
  endfor
  call writefile([json_encode(s:found)], $OB0_REPORT)
  " (Neovim 0.7 tells of changes later, and after `shutdown` if it is ending then)
  sleep 3000m
  qall!
catch
  call writefile([json_encode({'failed': v:exception . ' at ' . v:throwpoint})], $OB0_REPORT)
  cquit
endtry
