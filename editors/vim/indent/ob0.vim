" Oberon-0: indents as the server's layout does. What decides is the text from the heading above (MODULE or PROCEDURE, first in
" its line) to the line; the column of a PROCEDURE counts as its level.
if exists('b:did_indent') | finish | endif
let b:did_indent = 1

setlocal indentexpr=Ob0Indent() indentkeys=!^F,o,O,0=MODULE,0=CONST,0=TYPE,0=VAR,0=PROCEDURE,0=BEGIN,0=END,0=ELSIF,0=ELSE,0=UNTIL
let b:undo_indent = 'setlocal indentexpr< indentkeys<'

if exists('*Ob0Indent') | finish | endif

let s:heading = '\C^\s*\%(MODULE\|PROCEDURE\)\>'
" (`(*)` opens a comment)
let s:opens = '(\*'
let s:closes = '(\@1<!\*)'
let s:delimiter = '(\*\|\*)'
" the start of a comment, a mark, a word with a capital first, or everything up to one of these
let s:token = '\C(\*\|[()\[\];]\|[A-Z][A-Za-z0-9]*\|\%([a-z0-9][A-Za-z0-9]*\|[^A-Za-z0-9()\[\];]\)\+'

" The level inside the innermost block or statement; a record is neither.
function! s:Inside(stack) abort
  for l:it in reverse(copy(a:stack))
    if l:it[0] !=# 'record' | return l:it[1] + 1 | endif
  endfor
  return 0
endfunction

" Takes a mark or a word that begins with a capital into a state.
function! s:Take(state, token) abort
  let l:stack = a:state.stack
  if a:token ==# 'MODULE'
    call add(l:stack, ['block', 0])
  elseif a:token ==# 'PROCEDURE'
    call add(l:stack, ['block', s:Inside(l:stack)])
  elseif a:token =~# '^\%(IF\|WHILE\|REPEAT\)$'
    call add(l:stack, ['statement', s:Inside(l:stack)])
  elseif a:token ==# 'RECORD'
    call add(l:stack, ['record', 0])
  elseif a:token =~# '^\%(END\|UNTIL\)$' && len(l:stack)
    call remove(l:stack, -1)
  elseif a:token =~# '^[(\[]$'
    let a:state.parens += 1
  elseif a:token =~# '^[)\]]$'
    let a:state.parens -= 1
  endif
  let l:apart = a:state.parens <= 0 && (empty(l:stack) || l:stack[-1][0] !=# 'record')
  let a:state.fresh = l:apart && a:token =~# '^\%(;\|BEGIN\|THEN\|DO\|ELSE\|REPEAT\|CONST\|TYPE\|VAR\)$'
endfunction

" Takes the lines before `end` into a state. If a comment ends that didn't begin in them, stops with the cursor there and returns 1.
function! s:Scan(state, end) abort
  while a:state.line < a:end
    let l:text = getline(a:state.line)
    let l:at = 0
    while 1
      let [l:token, l:from, l:at] = matchstrpos(l:text, a:state.depth ? s:delimiter : s:token, l:at)
      if l:from < 0 | break | endif
      if l:token ==# '(*'
        let a:state.depth += 1
      elseif a:state.depth
        let a:state.depth -= 1
      elseif l:token ==# ')' && !a:state.strays && strpart(l:text, l:from - 1, 1) ==# '*'
        call cursor(a:state.line, l:from)
        return 1
      elseif l:token =~# '^[A-Z()\[\];]'
        call s:Take(a:state, l:token)
      elseif l:token =~# '\S'
        let a:state.fresh = 0
      endif
    endwhile
    let a:state.line += 1
  endwhile
  return 0
endfunction

" The state at a heading, which is in a block for each level; without a heading (0) the state at the start.
function! s:Start(heading) abort
  let l:level = getline(a:heading) =~# '^\s*PROCEDURE' ? max([indent(a:heading) / shiftwidth(), 1]) : 0
  let l:stack = map(range(l:level), '["block", v:val]')
  return {'line': max([a:heading, 1]), 'depth': 0, 'strays': !a:heading, 'stack': l:stack, 'parens': 0, 'fresh': 1}
endfunction

" The state before a line, by the heading above. A heading in a comment isn't one: that comment ends below the heading and began
" above it. (An end below the line is looked for in 200 lines.)
function! s:FromHeading(line) abort
  call cursor(a:line, 1)
  let l:heading = search(s:heading, 'bnW')
  let l:state = s:Start(l:heading)
  while s:Scan(l:state, a:line)
        \ || !l:state.depth && !l:state.strays && cursor(a:line, 1) == 0 && searchpair(s:opens, '', s:closes, 'cW', '', a:line + 200) > 0
    let l:opened = searchpair(s:opens, '', s:closes, 'bW')
    let l:above = l:opened > 0 ? search(s:heading, 'bnW') : l:heading
    let l:state = s:Start(l:above)
    " (a comment that ends and never began is none)
    let l:state.strays = !l:above || l:above >= l:heading
    let l:heading = l:above
  endwhile
  return l:state
endfunction

" The line that was asked for last, what it was then, and the state before it: `=` asks for one line after another.
let s:last = {'buffer': 0}

" Whether nothing has changed since then but the indentation of that line, and no heading stands between it and this one.
function! s:GoesOn(line) abort
  if s:last.buffer != bufnr('') || s:last.line > a:line || match(getline(s:last.line, a:line - 1), s:heading) >= 0 | return 0 | endif
  let l:text = getline(s:last.line)
  let l:changes = b:changedtick - s:last.tick
  return l:changes == 0 || l:changes == 1 && l:text !=# s:last.text && trim(l:text) ==# trim(s:last.text)
endfunction

function! s:Before(line) abort
  if !s:GoesOn(a:line) || s:Scan(s:last.state, a:line)
    let s:last = {'buffer': bufnr(''), 'state': s:FromHeading(a:line)}
  endif
  call extend(s:last, {'line': a:line, 'text': getline(a:line), 'tick': b:changedtick})
  return s:last.state
endfunction

" The first word or mark in a line or the 50 lines after it.
function! s:Next(line) abort
  let l:depth = 0
  for l:text in getline(a:line, a:line + 50)
    let l:at = 0
    while 1
      let [l:token, l:from, l:at] = matchstrpos(l:text, l:depth ? s:delimiter : s:token, l:at)
      if l:from < 0 | break | endif
      if l:token ==# '(*'
        let l:depth += 1
      elseif l:depth
        let l:depth -= 1
      elseif l:token =~# '\S'
        return l:token
      endif
    endwhile
  endfor
  return ''
endfunction

function! Ob0Indent() abort
  let l:state = s:Before(v:lnum)
  let l:stack = l:state.stack
  if empty(l:stack) | return 0 | endif
  let l:next = s:Next(v:lnum)
  let l:top = l:stack[-1]
  let l:records = len(filter(copy(l:stack), 'v:val[0] ==# "record"'))
  if l:state.parens <= 0 && l:top[0] ==# 'block' && l:next =~# '^\%(CONST\|TYPE\|VAR\|BEGIN\)$'
        \ || l:top[0] !=# 'record' && l:next =~# '^\%(END\|ELSIF\|ELSE\|UNTIL\)$'
    let l:level = l:top[1]
  elseif l:records
    " (fields are one level further in than the name of their record's declaration, and END is below that name)
    let l:level = s:Inside(l:stack) + l:records - (l:next ==# 'END' ? 1 : 0)
  else
    let l:level = s:Inside(l:stack) + (l:state.fresh || l:next ==# 'PROCEDURE' ? 0 : 1)
  endif
  return l:level * shiftwidth()
endfunction
