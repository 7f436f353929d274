# Completion of lttac for bash: source this file, or copy it to ~/.local/share/bash-completion/completions/lttac

# The names of the nodes of the first setup among these words.
_lttac_nodes() {
    local word
    for word; do
        if [[ $word == *.toml && -r $word ]]; then
            awk '/^[[:space:]]*\[/ { here = /^[[:space:]]*\[nodes\]/ } here && sub(/[[:space:]]*=.*/, "") { gsub(/[[:space:]"]/, ""); print }' "$word"
            return
        fi
    done
}

_lttac() {
    local current=${COMP_WORDS[COMP_CWORD]} before=${COMP_WORDS[COMP_CWORD - 1]}
    local files='' options='' place=0 at word suffix
    COMPREPLY=()
    if ((COMP_CWORD == 1)); then
        mapfile -t COMPREPLY < <(compgen -W 'emit schedule draw plot' -- "$current")
        return
    fi
    # What each command takes: the endings of its files in order, `node` for the name of a node, and its options.
    case ${COMP_WORDS[1]} in
        emit) files='lus toml node' options='--header' ;;
        schedule) files='lus csv toml' options='--seed --horizon --jitter --loss' ;;
        draw) files='lus csv csv toml' options='--node --from --to --width' ;;
        plot) files='lus csv csv toml' options='--observer --from --to --width' ;;
    esac
    # In `--node=x` bash takes the sign for a word of its own.
    [[ $before == '=' ]] && before=${COMP_WORDS[COMP_CWORD - 2]}
    [[ $current == '=' ]] && current=''
    [[ " --seed --horizon --jitter --loss --from --to --width " == *" $before "* ]] && return
    if [[ $current == -* ]]; then
        mapfile -t COMPREPLY < <(compgen -W "$options" -- "$current")
        return
    fi
    # How many files stand before this word.
    for ((at = 2; at < COMP_CWORD; at++)); do
        word=${COMP_WORDS[at]}
        if [[ $word == --header ]]; then
            continue
        elif [[ $word == --* ]]; then
            [[ ${COMP_WORDS[at + 1]} == '=' ]] && ((at++))
            ((at++))
        else
            ((place++))
        fi
    done
    read -ra files <<< "$files"
    suffix=${files[place]-}
    [[ $before == --node ]] && suffix=node
    [[ $before == --observer ]] && suffix=obs
    if [[ -z $suffix ]]; then
        mapfile -t COMPREPLY < <(compgen -W "$options" -- "$current")
        return
    fi
    if [[ $suffix == node ]]; then
        mapfile -t COMPREPLY < <(compgen -W "$(_lttac_nodes "${COMP_WORDS[@]:2}")" -- "$current")
        return
    fi
    compopt -o filenames 2> /dev/null
    mapfile -t COMPREPLY < <(compgen -f -X "!*.$suffix" -- "$current"; compgen -d -- "$current")
}

complete -F _lttac lttac
