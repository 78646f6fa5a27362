#!/bin/sh
# Kakoune without a screen: the file type of each file that is named, into OB0_REPORT, what `lint` finds in a faulty file
# before and after it is mended, the type of a new file before and after it is saved, and what :format and :comment-line do.
#
# What is said in two calls can change places, so each has an answer, which is awaited before the next one is said. It is a
# file, which has its name once it is whole.
timeout -k 10 300 kak -ui dummy -s ob0test "$OB0_WORK/faulty.Mod" >/dev/null 2>"$OB0_REPORT/said" &
editor=$!
# await COMMAND..: waits until a command ends with 0, as long as the editor is there.
await() {
    until "$@"; do
        kill -0 $editor 2>/dev/null || { echo "waited in vain for: $*"; cat "$OB0_REPORT/said"; exit 1; }
        sleep 0.1
    done
}
# answer NAME COMMANDS VALUE: has the editor do something, and then write a value to a file of that name.
answer() {
    file="$OB0_REPORT/$1"
    rm -f "$file"
    printf '%s\n' "evaluate-commands -client client0 %{ $2; echo -to-file '$file.new' $3; nop %sh{ mv '$file.new' '$file' } }" | kak -p ob0test
    await [ -e "$file" ]
}
# (lint runs beside the editor: what it has found is asked for until it is there)
finds() { answer "$1" nop '%opt{lint_messages}' && grep -q Undeclared "$file"; }
finds_none() { ! finds "$1"; }
is_there() { kak -l | grep -qx ob0test; }
await is_there
for name in "$@"; do
    answer "$name" "edit '$OB0_WORK/$name'" '%opt{filetype}'
done
answer begun "edit '$OB0_WORK/faulty.Mod'; lint-buffer" ''
await finds faulty
answer begun "execute-keys '%cMODULE M;<ret>BEGIN WriteLn END M.<esc>'; lint-buffer" ''
await finds_none mended
answer unsaved "edit '$OB0_WORK/new.mod'; execute-keys 'iMODULE N; END N.<esc>'" '%opt{filetype}'
answer saved write '%opt{filetype}'
answer commented "try comment-line; execute-keys '%'" '%val{selection}'
answer formatted "edit '$OB0_WORK/new.mod'; execute-keys '%cMODULE N;BEGIN WriteLn END N.<esc>'; format; execute-keys '%'" '%val{selection}'
answer faulty_formatted "execute-keys '%cMODULE N;BEGIN x END N.<esc>'; try %{ format } catch %{ set-register f %val{error} }; execute-keys '%'" '%val{selection} %reg{f}'
printf 'kill!\n' | kak -p ob0test
wait $editor
