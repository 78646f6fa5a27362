# Oberon-0 for Kakoune: file type, colours, comments, `lint` by `ob0-check --hints` and `format` by `ob0-format`.
declare-option -docstring 'the program ob0: its name, or the path of its file' str ob0_program ob0

hook global BufCreate .*\.ob0 %{ set-option buffer filetype ob0 }
# (other languages also use the endings .mod and .Mod: such a file is Oberon-0 only if its first word after comments is MODULE in
# any case, and no path follows as in Go's files; a new file has no first word yet, so it is also examined when it is saved)
define-command -hidden ob0-detect %{ try %{
    evaluate-commands -draft %{
        execute-keys '%s\A(?:\s|\(\*(?:.|\n)*?\*\)|\*\))*\K(?i)MODULE\b[^\n]*<ret>'
        evaluate-commands %sh{
            case "${kak_bufname##*/} $kak_selection" in
            *' MODULE'*) ;;
            'go.mod '*) echo fail ;;
            *) if printf %s "$kak_selection" | grep -Eq '^.{6}[[:blank:]]+[^[:blank:]]*[./][[:alnum:]]'; then echo fail; fi ;;
            esac
        }
        set-option buffer filetype ob0
    }
} }
hook global BufCreate .*\.(mod|Mod) ob0-detect
hook global BufWritePost .*\.(mod|Mod) %{ evaluate-commands %sh{ [ "$kak_opt_filetype" = ob0 ] || echo ob0-detect } }

hook global WinSetOption filetype=ob0 %{
    require-module ob0
    # (there is no comment that ends with its line)
    set-option window comment_line ''
    set-option window comment_block_begin '(*'
    set-option window comment_block_end '*)'
    set-option window indentwidth 2
    hook -group ob0-indent window InsertChar \n ob0-indent-on-new-line
    hook -group ob0-indent window InsertChar [A-Z] ob0-indent-on-word
    hook -once -always window WinSetOption filetype=.* %{ remove-hooks window ob0-indent }
    # (awk adds the kind that lint needs, and gives a hint, which is the line below its error, the place of that error)
    set-option window lintcmd %{run() { ob0-check --hints "$1" | awk -F: '
        /^    hint: / { sub(/^ +/, ""); print at, $0; next }
        { at = $1 ":" $2 ":" $3 ":"; sub(/^[^:]*:[^:]*:[^:]*:/, "& error:"); print }'; } && run}
}

hook -group ob0-highlight global WinSetOption filetype=ob0 %{
    require-module ob0
    add-highlighter window/ob0 ref ob0
    hook -once -always window WinSetOption filetype=.* %{ remove-highlighter window/ob0 }
}

hook -group ob0-format global WinSetOption filetype=ob0 %{
    # `ob0-format` formats files, and this command gets a text and writes one
    set-option window formatcmd 'run() { trap : INT; t=$(mktemp -d) && cat >"$t/m.ob0" && ob0-format "$t/m.ob0" >/dev/null && cat "$t/m.ob0"; s=$?; rm -r "$t"; return $s; } && run'
}

provide-module ob0 %§
# (a new line is as far in as the one above, and a level more after a word that opens one)
define-command -hidden ob0-indent-on-new-line %{ evaluate-commands -draft -itersel %{
    try %{ execute-keys -draft <semicolon> K <a-&> }
    try %{ execute-keys -draft k x s \h+$ <ret> d }
    try %{ execute-keys -draft k x <a-k> \b(BEGIN|THEN|ELSE|DO|REPEAT|CONST|TYPE|VAR|RECORD)\s*(\(\*.*)?$ <ret> j <a-gt> }
} }
# (the words that close go back a level, and so do those that open the next part of a block, but not below its heading; a
# procedure is a level further in than the block that declares it)
define-command -hidden ob0-indent-on-word %{ evaluate-commands -draft -itersel %{
    try %{
        execute-keys -draft x <a-k> ^\h*(ELSIF|ELSE|UNTIL)$ <ret> <lt>
    } catch %{
        execute-keys -draft x <a-k> ^\h*(END|BEGIN|CONST|TYPE|VAR)$ <ret> k x <a-K> ^\h*(MODULE|PROCEDURE)\b <ret> j <lt>
    } catch %{
        execute-keys -draft x <a-k> ^\h*PROCEDURE$ <ret> k x <a-k> ^\h*(MODULE|PROCEDURE)\b <ret> j <a-gt>
    } catch %{
    }
} }
add-highlighter shared/ob0 regions
add-highlighter shared/ob0/code default-region group
add-highlighter shared/ob0/comment region -recurse \(\* \(\* \*\) fill comment
add-highlighter shared/ob0/code/ regex \b(MODULE|BEGIN|END|CONST|TYPE|VAR|PROCEDURE|IF|THEN|ELSIF|ELSE|WHILE|DO|REPEAT|UNTIL|ARRAY|OF|RECORD|DIV|MOD|OR)\b 0:keyword
add-highlighter shared/ob0/code/ regex \b(INTEGER|BOOLEAN)\b 0:type
add-highlighter shared/ob0/code/ regex \b(TRUE|FALSE)\b 0:value
add-highlighter shared/ob0/code/ regex \b[0-9]+\b 0:value
add-highlighter shared/ob0/code/ regex \b[0-9]+[A-Za-z][A-Za-z0-9]* 0:Error
add-highlighter shared/ob0/code/ regex \b(Read|Write|WriteLn)\b 0:builtin
§
