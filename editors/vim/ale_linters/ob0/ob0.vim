" ALE: the server `ob0 serve`, for buffers of Oberon-0 (in Neovim its own client starts that: see editors/neovim)
if has('nvim') | finish | endif

call ale#Set('ob0_executable', get(g:, 'ob0_program', 'ob0'))
call ale#linter#Define('ob0', {
      \ 'name': 'ob0',
      \ 'lsp': 'stdio',
      \ 'executable': {buffer -> ale#Var(buffer, 'ob0_executable')},
      \ 'command': '%e serve',
      \ 'language': 'oberon0',
      \ 'project_root': {buffer -> expand('#' . buffer . ':p:h')},
      \ })

" A fixer for ALE, which doesn't request formatting from a server: a script formats a copy with the server's answer.
function! Ob0Fix(buffer) abort
  return {'command': get(g:, 'ob0_format', 'ob0-format') . ' %t', 'read_temporary_file': 1}
endfunction

" ALE applies the edits of an answer to the text at its arrival. Here it forgets the rename and the code actions
" that it waits for when a buffer of Oberon-0 changes or is closed, so that such an answer does nothing.
function! s:Forget(buffer) abort
  if getbufvar(a:buffer, '&filetype') ==# 'ob0'
    silent! call ale#rename#ClearLSPData()
    silent! call ale#codefix#ClearLSPData()
  endif
endfunction
" The words of docs/MESSAGES.md for the server's answers, which ALE doesn't show. NAME and LINE are replaced according to the
" answer.
let s:words = {
      \ 'NoName': "no name here can be renamed: predeclared ones and the module's can't",
      \ 'Predeclared': "a predeclared name can't be renamed",
      \ 'BadName': "a name has letters and digits, a letter first, and isn't a reserved word",
      \ 'Duplicate': "`NAME` is declared in line LINE already",
      \ 'Captures': "with the new name, `NAME` in line LINE would refer to another declaration",
      \ 'TooLong': "the text would have more than 1,048,576 bytes",
      \ 'TooDeep': "the text would be nested more than 100 deep",
      \ 'Shadowed': "it would write TRUE or FALSE, which the module declares as something else",
      \ 'CommentInside': "there is a comment in the declaration that would be deleted",
      \ 'ill-typed': "the module has an error: fix the first one that is marked",
      \ }

" The name at a column, in the server's units, of a line that is counted from 0.
function! s:NameAt(line, column) abort
  let l:text = getline(a:line + 1)
  let [l:at, l:left] = [0, a:column]
  for l:letter in split(l:text, '\zs')
    if l:left <= 0 | break | endif
    let l:left -= char2nr(l:letter) > 0xffff ? 2 : 1
    let l:at += len(l:letter)
  endfor
  return matchstr(l:text, '^\w*', l:at)
endfunction

function! s:InWords(refusal) abort
  let l:parts = matchlist(a:refusal, '^\(\a\+\) \(\d\+\):\(\d\+\)-')
  if empty(l:parts) | return get(s:words, a:refusal, a:refusal) | endif
  let l:words = substitute(get(s:words, l:parts[1], a:refusal), '\CLINE', l:parts[2] + 1, '')
  return substitute(l:words, '\CNAME', s:NameAt(l:parts[2], l:parts[3]), '')
endfunction

function! s:Echo(words) abort
  echohl WarningMsg | echomsg 'ob0: ' . a:words | echohl None
endfunction

" Whether the user asked for a hover or a jump that finds nothing, in a module with an error. (ALE also asks by itself.)
function! s:FindsNothing(response) abort
  if !has_key(a:response, 'id') || get(a:response, 'result', 0) isnot v:null | return 0 | endif
  let l:hover = get(ale#hover#GetMap(), a:response.id, {'truncated_echo': 1})
  let l:is_asked = has_key(ale#definition#GetMap(), a:response.id)
        \ || !get(l:hover, 'truncated_echo', 0) && !get(l:hover, 'hover_from_balloonexpr', 0)
  return l:is_asked && !empty(filter(copy(ale#engine#GetLoclist(bufnr(''))), 'v:val.linter_name ==# "ob0"'))
endfunction

" A text that the server can't read (with half a surrogate pair, say) is told once more: its document is closed and opened.
" If that isn't read either, it is opened only for the next change, by ALE.
let s:tried = {}

function! s:OpenAgain(connection, why) abort
  let l:buffer = bufnr('')
  let l:count = get(s:tried, l:buffer, 0)
  if !ale#lsp#CloseDocument(l:buffer) | return | endif
  let s:tried[l:buffer] = l:count + 1
  if !l:count
    call ale#lsp#OpenDocument(a:connection, l:buffer, 'oberon0')
  endif
  if l:count < 2
    let l:how = l:count ? 'it stays closed until it is changed' : 'it is opened again'
    call s:Echo(printf('the server can''t read %s: %s (%s)', expand('%:t'), l:how, a:why))
  endif
endfunction

" Puts an answer into words, after ALE's own line.
function! s:Tell(connection, response) abort
  if get(a:response, 'method', '') ==# 'textDocument/publishDiagnostics'
    let s:tried = has_key(a:response.params, 'version') ? {} : s:tried
    return
  endif
  let l:is_unread = get(a:response, 'id', 0) is v:null && has_key(a:response, 'error')
  if l:is_unread && a:response.error.message =~# '^not \%(JSON\|a message\)$'
    call timer_start(0, {-> s:OpenAgain(a:connection, a:response.error.message)})
    return
  elseif type(get(a:response, 'error', 0)) is v:t_dict
    let l:words = s:InWords(a:response.error.message)
  elseif s:FindsNothing(a:response)
    let l:words = s:words['ill-typed']
  else
    return
  endif
  call timer_start(0, {-> s:Echo(l:words)})
endfunction

" Shows errors with hints that still belong to the text of a buffer: what was probably meant, after each fixed message.
function! s:ShowHints(tick, buffer, out, meta) abort
  let l:errors = []
  silent! let l:errors = json_decode(join(a:out, "\n"))
  let l:items = filter(copy(ale#engine#GetLoclist(a:buffer)), 'v:val.linter_name ==# "ob0"')
  let l:is_same = type(l:errors) is v:t_list && a:tick == getbufvar(a:buffer, 'changedtick')
        \ && map(copy(l:items), 'v:val.text') ==# map(copy(l:errors), 'v:val.description')
  if !l:is_same || empty(filter(copy(l:errors), 'has_key(v:val, "content")')) | return | endif
  for l:index in range(len(l:items))
    if has_key(l:errors[l:index], 'content')
      let l:items[l:index].text .= ' | hint: ' . l:errors[l:index].content.body
    endif
  endfor
  call ale#engine#SetResults(a:buffer, ale#engine#GetLoclist(a:buffer))
endfunction

" Asks `ob0-check --hints` about new errors, once ALE shows them. The script is in the program's folder, or on PATH.
function! s:AskForHints(buffer) abort
  let l:is_new = 'v:val.linter_name ==# "ob0" && !has_key(v:val, "ob0_asked")'
  let l:items = filter(copy(ale#engine#GetLoclist(a:buffer)), l:is_new)
  let l:near = fnamemodify(exepath(ale#Var(a:buffer, 'ob0_executable')), ':h') . '/ob0-check'
  let l:script = executable(l:near) ? l:near : 'ob0-check'
  if empty(l:items) || !get(g:, 'ob0_hints', 1) || !executable(l:script) | return | endif
  call map(l:items, 'extend(v:val, {"ob0_asked": 1})')
  let l:Show = function('s:ShowHints', [getbufvar(a:buffer, 'changedtick')])
  call ale#command#Run(a:buffer, ale#Escape(l:script) . ' --hints --json -', l:Show, {'read_buffer': 1})
endfunction

function! s:Listen() abort
  if &filetype ==# 'ob0'
    call s:AskForHints(bufnr(''))
    let l:connection = ale#Var(bufnr(''), 'ob0_executable') . ':' . expand('%:p:h')
    call ale#lsp#RegisterCallback(l:connection, function('s:Tell'))
  endif
endfunction

augroup ob0_ale
  autocmd!
  autocmd User ALELintPost call s:Listen()
  autocmd TextChanged,TextChangedI,TextChangedP,BufUnload * call s:Forget(str2nr(expand('<abuf>')))
augroup END
