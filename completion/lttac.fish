# Completion of lttac for fish: copy this file to ~/.config/fish/completions

# The words behind `lttac` that stand before the cursor, without options and their values.
function __lttac_words
    set -l skip 0
    for word in (commandline -opc)[2..]
        if test $skip = 1
            set skip 0
        else if string match -q -- '--*=*' $word; or test "$word" = --header
            continue
        else if string match -q -- '--*' $word
            set skip 1
        else
            echo $word
        end
    end
end

# Whether the word at the cursor is the file of this number for one of these commands.
function __lttac_file
    set -l words (__lttac_words)
    test (count $words) = $argv[1]; and contains -- $words[1] $argv[2..]
end

function __lttac_command
    set -l words (__lttac_words)
    test (count $words) -ge 1; and contains -- $words[1] $argv
end

# The names of the nodes of the first setup among the words.
function __lttac_nodes
    set -l setups (string match -- '*.toml' (__lttac_words))
    test -r "$setups[1]"; and awk '/^[[:space:]]*\[/ { here = /^[[:space:]]*\[nodes\]/ } here && sub(/[[:space:]]*=.*/, "") { gsub(/[[:space:]"]/, ""); print }' $setups[1]
end

complete -c lttac -f
complete -c lttac -n 'test (count (__lttac_words)) = 0' -a emit -d 'print the C of a node'
complete -c lttac -n 'test (count (__lttac_words)) = 0' -a schedule -d 'draw a schedule'
complete -c lttac -n 'test (count (__lttac_words)) = 0' -a draw -d 'print a picture of a schedule'
complete -c lttac -n 'test (count (__lttac_words)) = 0' -a plot -d 'print a picture of the outputs'

complete -c lttac -n '__lttac_file 1 emit schedule draw plot' -k -a '(__fish_complete_suffix .lus)'
complete -c lttac -n '__lttac_file 2 schedule draw plot; or __lttac_file 3 draw plot' -k -a '(__fish_complete_suffix .csv)'
complete -c lttac -n '__lttac_file 2 emit; or __lttac_file 3 schedule; or __lttac_file 4 draw plot' -k -a '(__fish_complete_suffix .toml)'
complete -c lttac -n '__lttac_file 3 emit' -a '(__lttac_nodes)' -d 'this node'

complete -c lttac -n '__lttac_command emit' -l header -d 'print its header alone'
complete -c lttac -n '__lttac_command schedule' -x -l seed -d 'which schedule'
complete -c lttac -n '__lttac_command schedule' -x -l horizon -d 'the tick at which it ends'
complete -c lttac -n '__lttac_command schedule' -x -l jitter -d 'thousandths of the intervals of periods'
complete -c lttac -n '__lttac_command schedule' -x -l loss -d 'how many of a thousand messages are lost'
complete -c lttac -n '__lttac_command draw' -x -l node -a '(__lttac_nodes)' -d 'only arrows of this node'
complete -c lttac -n '__lttac_command plot' -x -l observer -k -a '(__fish_complete_suffix .obs)' -d 'what is to hold'
complete -c lttac -n '__lttac_command draw plot' -x -l from -d 'the first tick or instant'
complete -c lttac -n '__lttac_command draw plot' -x -l to -d 'the last tick or instant'
complete -c lttac -n '__lttac_command draw plot' -x -l width -d 'how wide the picture is'
