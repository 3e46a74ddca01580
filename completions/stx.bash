# Completions of stx for bash.

_stx() {
    local word=${COMP_WORDS[COMP_CWORD]} before=${COMP_WORDS[COMP_CWORD - 1]} it
    COMPREPLY=()
    case $before in
        --fuel | --lexeme | --instances | --sample) return ;;
    esac
    if [[ $word == -* ]]; then
        mapfile -t COMPREPLY < <(compgen -W '--fuel --lexeme --instances --check --sample' -- "$word")
        return
    fi
    compopt -o filenames 2>/dev/null
    while IFS= read -r it; do
        if [[ -d $it || $it == *.stx ]]; then COMPREPLY+=("$it"); fi
    done < <(compgen -f -- "$word")
}

complete -F _stx stx
