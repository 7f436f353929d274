# Completion of ltta for fish: copy this file to ~/.config/fish/completions

# The words behind `ltta` that stand before the cursor, without options and their values.
function __ltta_words
    set -l skip 0
    for word in (commandline -opc)[2..]
        if test $skip = 1
            set skip 0
        else if string match -q -- '--*=*' $word
            continue
        else if string match -q -- '--*' $word
            set skip 1
        else
            echo $word
        end
    end
end

# Whether the word at the cursor is the file of this number for one of these commands.
function __ltta_file
    set -l words (__ltta_words)
    test (count $words) = $argv[1]; and contains -- $words[1] $argv[2..]
end

function __ltta_command
    set -l words (__ltta_words)
    test (count $words) -ge 1; and contains -- $words[1] $argv
end

# The names of the nodes of the first setup among the words.
function __ltta_nodes
    set -l setups (string match -- '*.toml' (__ltta_words))
    test -r "$setups[1]"; and awk '/^[[:space:]]*\[/ { here = /^[[:space:]]*\[nodes\]/ } here && sub(/[[:space:]]*=.*/, "") { gsub(/[[:space:]"]/, ""); print }' $setups[1]
end

complete -c ltta -f
complete -c ltta -n 'test (count (__ltta_words)) = 0' -a check -d 'check a program, and a setup for it'
complete -c ltta -n 'test (count (__ltta_words)) = 0' -a meaning -d 'print the whole stream of each output'
complete -c ltta -n 'test (count (__ltta_words)) = 0' -a run -d 'run a program under a schedule'
complete -c ltta -n 'test (count (__ltta_words)) = 0' -a plan -d 'print the countdowns and cycles of a setup'
complete -c ltta -n 'test (count (__ltta_words)) = 0' -a sim -d 'draw a schedule'
complete -c ltta -n 'test (count (__ltta_words)) = 0' -a big -d 'run a large program of its own'
complete -c ltta -n 'test (count (__ltta_words)) = 0' -a watch -d 'print whether an observer holds'
complete -c ltta -n 'test (count (__ltta_words)) = 0' -a audit -d 'print the first message too few or too many'
complete -c ltta -n 'test (count (__ltta_words)) = 0' -a trace -d 'print a part of a schedule'

complete -c ltta -n '__ltta_file 1 check meaning run sim watch audit trace' -k -a '(__fish_complete_suffix .lus)'
complete -c ltta -n '__ltta_file 2 meaning run sim watch audit trace' -k -a '(__fish_complete_suffix .csv)'
complete -c ltta -n '__ltta_file 3 run watch audit trace' -k -a '(__fish_complete_suffix .csv)'
complete -c ltta -n '__ltta_file 4 watch' -k -a '(__fish_complete_suffix .obs)'
complete -c ltta -n '__ltta_file 1 plan; or __ltta_file 2 check; or __ltta_file 3 sim; or __ltta_file 4 run audit trace; or __ltta_file 5 watch' -k -a '(__fish_complete_suffix .toml)'

complete -c ltta -n '__ltta_command plan sim' -x -l horizon -d 'the tick at which a list ends'
complete -c ltta -n '__ltta_command sim' -x -l seed -d 'which schedule'
complete -c ltta -n '__ltta_command trace' -x -l node -a '(__ltta_nodes)' -d 'only this node'
complete -c ltta -n '__ltta_command trace' -x -l from -d 'the first tick'
complete -c ltta -n '__ltta_command trace' -x -l to -d 'the last tick'
