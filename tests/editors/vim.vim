" Drives the server from Vim by ALE, which the lines of editors/vim/README.md set up.
" Variables: OB0_FILE (the file to edit), OB0_REPORT (where the findings go, a line of JSON each), OB0_STEPS (the name of a
" list of steps below); what a list of steps needs besides is in OB0_GIVEN, as JSON.
scriptencoding utf-8
" (messages that wait for a key would wait for ever)
set nomore shortmess+=aoOtT cmdheight=5 noswapfile nobackup nowritebackup
let s:given = json_decode($OB0_GIVEN)
let s:shown = ''
let s:offered = []
let s:linted = 0

function! s:Tell(step, found) abort
  call writefile([json_encode({'step': a:step, 'found': a:found})], $OB0_REPORT, 'a')
endfunction

" Waits until something holds.
function! s:Await(what, Holds) abort
  for l:count in range(30000)
    if a:Holds() | return | endif
    sleep 10m
  endfor
  throw 'waited in vain for ' . a:what
endfunction

" What ALE shows, and asks of its user.
runtime autoload/ale/util.vim
function! ale#util#ShowMessage(text, ...) abort
  let s:shown = a:text
endfunction
function! ale#util#Input(message, value, ...) abort
  if a:message =~# '^New name'
    return s:given.name
  endif
  let s:offered = map(filter(split(a:message, "\n"), 'v:val =~# "^\\d) "'), 'v:val[3:]')
  return string(index(s:offered, s:given.title) + 1)
endfunction
augroup ob0test
  autocmd User ALELintPost let s:linted += 1
augroup END

" The diagnostics of this buffer, once ALE has new ones.
function! s:Diagnosed(before) abort
  call s:Await('diagnostics', {-> s:linted > a:before})
  return map(copy(ale#engine#GetLoclist(bufnr(''))), '[v:val.lnum - 1, v:val.col - 1, v:val.end_lnum - 1, v:val.end_col, v:val.code, v:val.text]')
endfunction

" Does something that changes the buffer, and gives what is shown then.
function! s:After(Change) abort
  let l:tick = b:changedtick
  " (what is published for the change may come at once, and is published once)
  let l:before = s:linted
  call a:Change()
  call s:Await('a change', {-> b:changedtick != l:tick})
  ALELint
  return s:Diagnosed(l:before)
endfunction

function! s:Go(place) abort
  call cursor(a:place[0] + 1, a:place[1] + 1)
endfunction

function! s:Here() abort
  return [line('.') - 1, col('.') - 1]
endfunction

function! s:Text() abort
  return join(getline(1, '$'), "\n") . (&eol ? "\n" : '')
endfunction

function! s:mending() abort
  call s:Tell('mended', s:After({-> [deletebufline('', 1, '$'), setline(1, split(s:given.mended, "\n"))]}))
endfunction

" The lines of ob0's files that come after something is asked.
function! s:SaidBy(Ask) abort
  messages clear
  call a:Ask()
  call s:Await('what is said', {-> execute('messages') =~# 'ob0: '})
  return join(filter(split(execute('messages'), "\n"), 'v:val =~# "^ob0: "'), ' | ')
endfunction

function! s:Renamed(name) abort
  let s:given.name = a:name
  ALERename
endfunction

function! s:Inserted(text) abort
  call setline(1, getline(1) . a:text)
endfunction

function! s:refused() abort
  for [l:place, l:name] in s:given.renames
    call s:Go(l:place)
    call s:Tell(l:name, s:SaidBy({-> s:Renamed(l:name)}))
  endfor
  call s:After({-> s:Inserted('$')})
  call s:Go([1, 4])
  call s:Tell('rename', s:SaidBy({-> s:Renamed('q')}))
  call s:Tell('hover', s:SaidBy({-> execute('ALEHover')}))
  call s:Tell('definition', s:SaidBy({-> execute('ALEGoToDefinition')}))
endfunction

" The errors of the buffer, once the text of one has a hint.
function! s:Hinted() abort
  call s:Await('a hint', {-> !empty(filter(copy(ale#engine#GetLoclist(bufnr(''))), 'v:val.text =~# "hint: "'))})
  return map(copy(ale#engine#GetLoclist(bufnr(''))), '[v:val.lnum - 1, v:val.col - 1, v:val.end_lnum - 1, v:val.end_col, v:val.code, v:val.text]')
endfunction

function! s:hinted() abort
  call s:Tell('hinted', s:Hinted())
  call s:Await('the list', {-> getloclist(0)[0].text =~# 'hint: '})
  call s:Tell('listed', map(getloclist(0), 'v:val.text'))
  call s:Tell('changed', s:After({-> setline(4, '  x := 1;')}))
  call s:Tell('hinted again', s:Hinted())
  let g:ob0_hints = 0
  call s:After({-> setline(4, '  x = 1;')})
  sleep 2
  call s:Tell('turned off', map(copy(ale#engine#GetLoclist(bufnr(''))), 'v:val.text'))
endfunction

function! s:looking() abort
  for l:place in s:given.places
    call s:Go(l:place)
    let s:shown = ''
    ALEHover
    call s:Await('what is shown', {-> s:shown !=# ''})
    call s:Tell('shown', trim(s:shown))
    call setqflist([])
    ALEFindReferences -quickfix
    call s:Await('a list of places', {-> len(getqflist())})
    call s:Tell('listed', map(getqflist(), '[v:val.lnum - 1, v:val.col - 1]'))
    cclose
    call s:Go(l:place)
    ALEGoToDefinition
    call s:Await('the jump to the definition', {-> s:Here() != l:place})
    call s:Tell('jumped', s:Here())
  endfor
endfunction

function! s:rename() abort
  call s:Go(s:given.place)
  call s:Tell('renamed', s:After({-> execute('ALERename')}))
  call s:Tell('text', s:Text())
endfunction

function! s:formatted() abort
  call s:Tell('formatted', s:After({-> execute('ALEFix')}))
  call s:Tell('text', s:Text())
  write
  call s:Tell('file', join(readfile($OB0_FILE, 'b'), "\n"))
endfunction

" What is said of a text with half a surrogate pair, and the diagnostics of the next one.
function! s:unread() abort
  messages clear
  call setline(1, getline(1) . " (* \ud83d *)")
  ALELint
  call s:Await('what is said', {-> execute('messages') =~# 'stays closed'})
  call s:Tell('said', filter(split(execute('messages'), "\n"), 'v:val =~# "^ob0: "'))
  call s:Tell('read', s:After({-> setline(1, 'MODULE M;$')}))
endfunction

function! s:acting() abort
  call s:Go(s:given.place)
  call s:Tell('acted', s:After({-> execute('ALECodeAction')}))
  call s:Tell('offered', s:offered)
  call s:Tell('text', s:Text())
endfunction

function! s:Run() abort
  execute 'edit' fnameescape($OB0_FILE)
  if &filetype !=# 'ob0' | throw 'the file was taken as ' . &filetype | endif
  call s:Tell('opened', s:Diagnosed(0))
  call call('s:' . $OB0_STEPS, [])
endfunction

" (once Vim has started: ALE looks at no buffer before)
function! s:Start(timer) abort
  try
    call s:Run()
    qall!
  catch
    call s:Tell('failed', v:exception . ' at ' . v:throwpoint)
    cquit
  endtry
endfunction
call timer_start(100, function('s:Start'))
