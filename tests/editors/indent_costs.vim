" Writes for each file of OB0_FILES how often each line of the scripts runs, beside it: in FILE.line for the indentation of a line
" near its end, in FILE.all for that of all its lines.
set nomore noswapfile
try
  for s:file in json_decode($OB0_FILES)
    for s:what in ['line', 'all']
      execute 'edit!' fnameescape(s:file)
      let v:lnum = line('$') - 2
      call cursor(v:lnum, 1)
      execute 'profile start' fnameescape(s:file . '.' . s:what)
      profile func *
      if s:what ==# 'line'
        call Ob0Indent()
      else
        silent normal! gg=G
      endif
      profile stop
    endfor
  endfor
  qall!
catch
  cquit
endtry
