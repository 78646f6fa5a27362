" Oberon-0: colours
if exists('b:current_syntax') | finish | endif

syn case match
syn keyword ob0Keyword MODULE BEGIN END CONST TYPE VAR PROCEDURE
syn keyword ob0Conditional IF THEN ELSIF ELSE
syn keyword ob0Repeat WHILE DO REPEAT UNTIL
syn keyword ob0Structure ARRAY OF RECORD
syn keyword ob0Operator DIV MOD OR
syn keyword ob0Type INTEGER BOOLEAN
syn keyword ob0Boolean TRUE FALSE
syn keyword ob0Builtin Read Write WriteLn
syn match ob0Number /\<\d\+\>/
syn match ob0Error /\<\d\+\a\w*\>/
syn keyword ob0Todo contained TODO FIXME XXX
" (comments nest; `(*` always opens one)
syn region ob0Comment start=/(\*/ end=/\*)/ contains=ob0Comment,ob0Todo,@Spell
syn sync fromstart

hi def link ob0Keyword Statement
hi def link ob0Conditional Conditional
hi def link ob0Repeat Repeat
hi def link ob0Structure Structure
hi def link ob0Operator Operator
hi def link ob0Type Type
hi def link ob0Boolean Boolean
hi def link ob0Builtin Function
hi def link ob0Number Number
hi def link ob0Error Error
hi def link ob0Todo Todo
hi def link ob0Comment Comment

let b:current_syntax = 'ob0'
