" Indents the files of OB0_FILES anew, all lines by `=` and some of them once more alone, and writes them. The lines that come out
" otherwise alone go to OB0_REPORT, as JSON.
set nomore noswapfile
let s:found = []
try
  for s:file in json_decode($OB0_FILES)
    execute 'edit!' fnameescape(s:file)
    silent %s/^\s*//e
    silent normal! gg=G
    let s:line = line('$')
    while s:line > 0
      let v:lnum = s:line
      call cursor(s:line, 1)
      if getline(s:line) =~# '\S' && Ob0Indent() != indent(s:line)
        call add(s:found, [s:file, s:line, Ob0Indent(), getline(s:line)])
      endif
      let s:line -= 7
    endwhile
    silent write
  endfor
  call writefile([json_encode(s:found)], $OB0_REPORT)
  qall!
catch
  call writefile([json_encode(v:exception . ' at ' . v:throwpoint)], $OB0_REPORT)
  cquit
endtry
