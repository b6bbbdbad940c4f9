# Completion of alma for fish: put this file into ~/.config/fish/completions.
# __alma_at PLACE COMMAND..: so many words stand before the cursor, `why` uncounted, and the command is one of these.
function __alma_at
    set -l words (commandline -opc)
    if test "$words[2]" = why
        set -e words[2]
    end
    contains -- "$words[2]" $argv[2..-1]; and test (count $words) -eq $argv[1]
end

function __alma_behind
    for place in (seq 3 19)
        __alma_at $place $argv; and return
    end
end

complete -c alma -f
complete -c alma -n __fish_use_subcommand -a check -d 'tell whether a source is a program'
complete -c alma -n __fish_use_subcommand -a run -d 'compile a source and run it'
complete -c alma -n __fish_use_subcommand -a trace -d 'compile a source and tell what its run does'
complete -c alma -n __fish_use_subcommand -a compile -d 'compile a source and store its object'
complete -c alma -n __fish_use_subcommand -a list -d 'print the text of an object'
complete -c alma -n __fish_use_subcommand -a exec -d 'verify an object and run it'
complete -c alma -n __fish_use_subcommand -a sample -d 'compile and run a source of so many lines'
complete -c alma -n __fish_use_subcommand -a all -d 'run a source in all ways, and show its variables after each'
complete -c alma -n __fish_use_subcommand -a link -d 'join sources, and run them or store their object'
complete -c alma -n __fish_use_subcommand -a pool -d 'run objects in turns'
complete -c alma -n __fish_use_subcommand -a back -d 'walk a run forward and back'
complete -c alma -n __fish_use_subcommand -a why -d 'do what the words ask, and tell what its end means'
complete -c alma -n __fish_use_subcommand -a replay -d 'write a page in which a run is watched'
complete -c alma -n __fish_use_subcommand -a help -d 'print the commands, or what a fault, a status, an option or a word means'
complete -c alma -n __fish_use_subcommand -l help -d 'print the commands'
complete -c alma -n __fish_use_subcommand -l version -d 'print which program runs'
complete -c alma -n '__fish_seen_subcommand_from why; and __alma_at 1 ""' -a 'check run trace compile list exec sample all link pool back'
complete -c alma -n '__alma_at 2 check run trace compile replay all' -a '(__fish_complete_suffix .al | string match -r ".*(?:\.al|/)(?:\t.*)?\$")'
complete -c alma -n '__alma_at 2 link' -a 'run compile'
complete -c alma -n '__alma_behind link' -a '(__fish_complete_suffix .al)'
complete -c alma -n '__alma_at 2 list exec pool back; or __alma_at 3 compile back; or __alma_behind pool' -F
complete -c alma -n '__alma_behind run trace exec all replay; and not string match -q -- "--steps=*" (commandline -opc)' -a --steps= -d 'the greatest number of machine steps'
complete -c alma -n '__alma_behind trace' -a --watch= -d 'a variable whose values are shown'
complete -c alma -n '__alma_behind run exec; and not contains -- --stats (commandline -opc)' -a --stats -d 'tell the counts of the run'
complete -c alma -n '__alma_behind replay' -l input -r -d 'what the program reads'
complete -c alma -n '__alma_behind replay' -s o -r -d 'the page'
complete -c alma -n '__alma_at 2 help' -d command -a 'check run trace compile list exec sample all link pool back why replay'
complete -c alma -n '__alma_at 2 help' -d page -a 'tutorial idioms language commands faults'
complete -c alma -n '__alma_at 2 help' -d word -a 'EITHER ORELSE SOME FORALL COMMIT NOT KNOWN FOR WHILE REPEAT CASE IF VAR MIX READ WRITE WRITELN RETURN DIV MOD ORD CHR'
# The faults of docs/FAULTS.md beside the script.
complete -c alma -n '__alma_at 2 help' -d fault -a '(sed -n "s/^### \([A-Za-z]*\).*/\1/p" (dirname (realpath (command -s (commandline -opc)[1])))/docs/FAULTS.md 2>/dev/null)'
