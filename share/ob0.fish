# Completion of ob0 and its scripts for fish.

# The modules and folders that the word at the cursor can become: fish's own completion of files knows ~, variables and quotes.
function __ob0_modules
    complete -C "'' "(commandline -ct) | string match -r -- '.*(?:\.ob0|\.mod|\.Mod|/)(?:\t.*)?$'
end

# Whether the command is one of these and still needs its file.
function __ob0_wants_file
    set -l words (commandline -opc)
    set -l plain
    set -l skipped no
    for word in $words[2..-1]
        if test $skipped = yes
            set skipped no
        else if contains -- $word --calls --turns
            set skipped yes
        else if not string match -q -- '-*' $word
            set -a plain $word
        end
    end
    test (count $plain) = 1; and contains -- $plain[1] $argv
end

complete -c ob0 -f
complete -c ob0 -n __fish_use_subcommand -a serve -d 'Serve one conversation with an editor over standard input and output'
complete -c ob0 -n __fish_use_subcommand -a check -d 'Print the errors of a module'
complete -c ob0 -n __fish_use_subcommand -a run -d 'Run a module on the numbers of standard input'
complete -c ob0 -n __fish_use_subcommand -a rename -d 'Print a module with another name for one of its names'
complete -c ob0 -n __fish_use_subcommand -a help -d 'Print how ob0 or one of its commands is used'
complete -c ob0 -n '__ob0_wants_file help' -a 'serve check run rename'
complete -c ob0 -n '__ob0_wants_file check run rename' -a '(__ob0_modules)'
complete -c ob0 -n '__fish_seen_subcommand_from run' -l calls -x -d 'How many calls may be open at a time, 0 to 64'
complete -c ob0 -n '__fish_seen_subcommand_from run' -l turns -x -d 'How many iterations a loop may make, 0 to 100000'
complete -c ob0 -n '__fish_seen_subcommand_from serve' -l stdio -d 'Changes nothing: serve always uses standard input and output'
complete -c ob0 -n '__fish_seen_subcommand_from serve' -l clientProcessId -x -d 'Changes nothing: the client is not watched'
complete -c ob0 -s h -l help -d 'Print help'
complete -c ob0 -n __fish_use_subcommand -s V -l version -d 'Print the version'

for script in ob0-check ob0-format ob0-rename ob0-trace
    complete -c $script -f -a '(__ob0_modules)'
    complete -c $script -s h -l help -d 'Print help'
    complete -c $script -s V -l version -d 'Print the version'
end
complete -c ob0-check -l hints -d 'Print under an error what was probably meant'
complete -c ob0-check -l github -d 'Print commands that mark the lines in a GitHub job'
complete -c ob0-check -l json -d "Print JSON in the form of GitLab's code quality reports"
complete -c ob0-format -l check -d 'Change nothing; list the files that are not formatted'
complete -c ob0-format -l diff -d 'Change nothing, and print what would change'
complete -c ob0-rename -s i -l in-place -d 'Replace the file'
complete -c ob0-trace -l calls -x -d 'How many calls may be open at a time, 0 to 64'
complete -c ob0-trace -l turns -x -d 'How many iterations a loop may make, 0 to 100000'
complete -c ob0-trace -l program -r -F -d 'The program ob0'

# Prints the words before the cursor that follow ob0-watch and its report.
function __ob0_watch_words
    set -l words (commandline -opc)
    set -e words[1]
    if test "$words[1]" = --report
        set -e words[1..2]
    end
    string join \n -- $words
end

# Whether the command line contains only the option for a report.
function __ob0_watch_begins
    set -l words (commandline -opc)
    test (count $words) = 1; or test "$words[2..-1]" = --report
end

# Completes the word at the cursor as ob0 does, or as the server after -- does.
function __ob0_watch_rest
    set -l words (__ob0_watch_words)
    if test "$words[1]" = --
        set -e words[1]
    else
        set -p words ob0
    end
    complete -C (string join ' ' -- (string escape -- $words) (commandline -ct))
end

complete -c ob0-watch -f
complete -c ob0-watch -n 'test (count (__ob0_watch_words)) = 0' -a 'serve check run rename help'
complete -c ob0-watch -n 'test (count (__ob0_watch_words)) = 0' -a -- -d 'Run another server than ob0'
complete -c ob0-watch -n 'test (count (__ob0_watch_words)) != 0' -a '(__ob0_watch_rest)'
complete -c ob0-watch -n __ob0_watch_begins -l report -r -F -d 'Write the report to a file'
complete -c ob0-watch -n __ob0_watch_begins -s h -l help -d 'Print help'
complete -c ob0-watch -n __ob0_watch_begins -s V -l version -d 'Print the version'
