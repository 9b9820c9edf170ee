# Completion of gp2 for fish. Made by `scripts/words fish` from scripts/lib/words.table.
# Whether the words before this one are those of the command, and so many arguments besides its options.
function __gp2_at
    set -l words (commandline -opc)
    set -e words[1]
    test "$words[1]" = $argv[1]; or return 1
    set -l count 0
    set -l behind 0
    set -e words[1]
    while set -q words[1]
        if test $behind = 0; and test "$words[1]" = --
            set behind 1
        else if test $behind = 0; and contains -- $words[1] --workers --bound --fan --seed --batch
            set -e words[1]
            set -q words[1]; or return 1 # a number is to come
        else if test $behind = 1; or not string match -q -- '-?*' $words[1]
            set count (math $count + 1)
        end
        set -e words[1]
    end
    test $count = $argv[2]
end
# Files of this pattern, and folders.
function __gp2_files
    set -l word (commandline -ct)
    for file in (__fish_complete_path $word | string replace -r '\t.*' '')
        string match -q -- "*/" $file; or string match -q -- $argv[1] $file; or continue
        echo $file
    end
end
# Whether the option is one of the command, and was not given yet.
function __gp2_option
    set -l words (commandline -opc)
    test "$words[2]" = $argv[1]
    and not contains -- -- $words
    and not string match -q -- "$argv[2]" $words
    and not string match -q -- "$argv[2]=*" $words
end
complete -c gp2 -f
complete -c gp2 -n __fish_use_subcommand -a run -d 'Run a program on a host graph'
complete -c gp2 -n '__gp2_at run 0' -k -a "(__gp2_files '*.gp2')"
complete -c gp2 -n '__gp2_at run 1' -k -a "(__gp2_files '*.host')"
complete -c gp2 -n '__gp2_option run --workers' -l workers -x -d 'How many workers search at the same time'
complete -c gp2 -n '__gp2_option run --bound' -l bound -x -d 'The maximum number of steps and turns of loops'
complete -c gp2 -n '__gp2_option run --fan' -l fan -x -d 'How many candidates one worker examines alone'
complete -c gp2 -n '__gp2_option run --seed' -l seed -x -d 'Seed for the choices made by or'
complete -c gp2 -n '__gp2_option run --journal' -l journal -d 'Print the steps of the run before its result'
complete -c gp2 -n '__gp2_option run --batch' -l batch -x -d 'How many matches a worker may propose at once'
complete -c gp2 -n __fish_use_subcommand -a demo -d 'Run a built-in program on a generated host graph'
complete -c gp2 -n '__gp2_at demo 0' -a 'closure colour tree'
complete -c gp2 -n '__gp2_option demo --workers' -l workers -x -d 'How many workers search at the same time'
complete -c gp2 -n '__gp2_option demo --fan' -l fan -x -d 'How many candidates one worker examines alone'
complete -c gp2 -n '__gp2_option demo --batch' -l batch -x -d 'How many matches a worker may propose at once'
complete -c gp2 -n __fish_use_subcommand -a check -d 'Check whether a journal and a result come from a run'
complete -c gp2 -n '__gp2_at check 0' -k -a "(__gp2_files '*.gp2')"
complete -c gp2 -n '__gp2_at check 1' -k -a "(__gp2_files '*.host')"
complete -c gp2 -n '__gp2_at check 2' -k -a "(__gp2_files '*')"
complete -c gp2 -n '__gp2_at check 3' -k -a "(__gp2_files '*')"
complete -c gp2 -n __fish_use_subcommand -a fmt -d 'Print a program in its canonical form'
complete -c gp2 -n '__gp2_at fmt 0' -k -a "(__gp2_files '*.gp2')"
complete -c gp2 -n __fish_use_subcommand -a step -d 'Move forward and back through a run'
complete -c gp2 -n '__gp2_at step 0' -k -a "(__gp2_files '*.gp2')"
complete -c gp2 -n '__gp2_at step 1' -k -a "(__gp2_files '*.host')"
complete -c gp2 -n '__gp2_at step 2' -k -a "(__gp2_files '*')"
complete -c gp2 -n '__gp2_option step --bound' -l bound -x -d 'The maximum number of steps and turns of loops'
complete -c gp2 -n '__gp2_option step --seed' -l seed -x -d 'Seed for the choices made by or'
