" Drives the server from Vim by YouCompleteMe, which lines of editors/vim/README.md set up.
" Variables: OB0_FILE (the file to edit), OB0_REPORT (where the findings go, a line of JSON each), OB0_STEPS (the name of a
" list of steps below); what a list of steps needs besides is in OB0_GIVEN, as JSON.
scriptencoding utf-8
" (messages that wait for a key would wait for ever)
set nomore shortmess+=aoOtT cmdheight=5 noswapfile nobackup nowritebackup
let g:ycm_always_populate_location_list = 1
let s:given = json_decode($OB0_GIVEN)

function! s:Tell(step, found) abort
  call writefile([json_encode({'step': a:step, 'found': a:found})], $OB0_REPORT, 'a')
endfunction

" Waits until something holds.
function! s:Await(what, Holds) abort
  for l:count in range(30000)
    if a:Holds() | return | endif
    sleep 10m
  endfor
  throw 'waited in vain for ' . a:what
endfunction

function! s:Go(place) abort
  call cursor(a:place[0] + 1, a:place[1] + 1)
endfunction

function! s:Text() abort
  return join(getline(1, '$'), "\n") . (&eol ? "\n" : '')
endfunction

" Changes the text, which a script has to say itself, and gives the texts of as many diagnostics as are wanted.
function! s:After(change, count) abort
  execute a:change
  doautocmd <nomodeline> TextChanged
  call s:Await(a:count . ' diagnostics', {-> youcompleteme#GetErrorCount() == a:count})
  call s:Await('the list of them', {-> len(getloclist(0)) == a:count})
  return map(getloclist(0), 'v:val.text')
endfunction

function! s:names() abort
  call s:Go(s:given.place)
  YcmCompleter GetHover
  wincmd P
  call s:Tell('shown', trim(s:Text()))
  pclose
  YcmCompleter GoToReferences
  call s:Tell('listed', map(getqflist(), '[v:val.lnum - 1, v:val.col - 1]'))
  cclose
  call s:Go(s:given.place)
  YcmCompleter GoToDefinition
  call s:Tell('jumped', [line('.') - 1, col('.') - 1])
  execute 'YcmCompleter RefactorRename' s:given.name
  cclose
  call s:Tell('renamed', s:Text())
  YcmCompleter Format
  call s:Tell('laid out', s:Text())
endfunction

function! s:formatted() abort
  YcmCompleter Format
  call s:Tell('laid out', s:Text())
  " (so that the text is told before it is saved)
  call s:After('normal! gg0i$', 1)
  call s:After('normal! gg0x', 0)
  silent write
  call s:Tell('file', join(readfile($OB0_FILE, 'b'), "\n"))
endfunction

function! s:inlining() abort
  call s:Go(s:given.place)
  " (the question which action is answered here: the first one)
  py3 import ycm.vimsupport; offered = []
  py3 ycm.vimsupport.SelectFromList = lambda _, items: offered.extend(items) or 0
  YcmCompleter FixIt
  call s:Tell('offered', py3eval('offered'))
  call s:Tell('acted', s:Text())
endfunction

function! s:Run() abort
  execute 'edit' fnameescape($OB0_FILE)
  if &filetype !=# 'ob0' | throw 'the file was taken as ' . &filetype | endif
  call s:Await('YouCompleteMe', {-> py3eval('ycm_state.IsServerReady()')})
  " (until it has diagnostics the server may not have begun)
  call s:Tell('typed', s:After('normal! gg0i$', 1))
  call s:Tell('mended', s:After('normal! gg0x', 0))
  call call('s:' . $OB0_STEPS, [])
endfunction

function! s:Start(timer) abort
  try
    call s:Run()
    qall!
  catch
    call s:Tell('failed', v:exception . ' at ' . v:throwpoint)
    cquit
  endtry
endfunction
call timer_start(100, function('s:Start'))
