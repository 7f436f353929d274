# Completion of ltta for bash: source this file, or copy it to ~/.local/share/bash-completion/completions/ltta

# The names of the nodes of the first setup among these words.
_ltta_nodes() {
    local word
    for word; do
        if [[ $word == *.toml && -r $word ]]; then
            awk '/^[[:space:]]*\[/ { here = /^[[:space:]]*\[nodes\]/ } here && sub(/[[:space:]]*=.*/, "") { gsub(/[[:space:]"]/, ""); print }' "$word"
            return
        fi
    done
}

_ltta() {
    local current=${COMP_WORDS[COMP_CWORD]} before=${COMP_WORDS[COMP_CWORD - 1]}
    local commands='check meaning run plan sim big watch audit trace'
    local files='' options='' place=0 at word suffix
    COMPREPLY=()
    if ((COMP_CWORD == 1)); then
        mapfile -t COMPREPLY < <(compgen -W "$commands" -- "$current")
        return
    fi
    # What each command takes: the endings of its files in order, and its options.
    case ${COMP_WORDS[1]} in
        check) files='lus toml' ;;
        meaning) files='lus csv' ;;
        run) files='lus csv csv toml' ;;
        plan) files='toml' options='--horizon' ;;
        sim) files='lus csv toml' options='--seed --horizon' ;;
        watch) files='lus csv csv obs toml' ;;
        audit) files='lus csv csv toml' ;;
        trace) files='lus csv csv toml' options='--node --from --to' ;;
    esac
    # In `--node=x` bash takes the sign for a word of its own.
    [[ $before == '=' ]] && before=${COMP_WORDS[COMP_CWORD - 2]}
    [[ $current == '=' ]] && current=''
    if [[ $before == --node ]]; then
        mapfile -t COMPREPLY < <(compgen -W "$(_ltta_nodes "${COMP_WORDS[@]:2}")" -- "$current")
        return
    fi
    [[ " --seed --horizon --from --to " == *" $before "* ]] && return
    if [[ $current == -* ]]; then
        mapfile -t COMPREPLY < <(compgen -W "$options" -- "$current")
        return
    fi
    # How many files stand before this word.
    for ((at = 2; at < COMP_CWORD; at++)); do
        word=${COMP_WORDS[at]}
        if [[ $word == --* ]]; then
            [[ ${COMP_WORDS[at + 1]} == '=' ]] && ((at++))
            ((at++))
        else
            ((place++))
        fi
    done
    read -ra files <<< "$files"
    suffix=${files[place]-}
    if [[ -z $suffix ]]; then
        mapfile -t COMPREPLY < <(compgen -W "$options" -- "$current")
        return
    fi
    compopt -o filenames 2> /dev/null
    mapfile -t COMPREPLY < <(compgen -f -X "!*.$suffix" -- "$current"; compgen -d -- "$current")
}

complete -F _ltta ltta
