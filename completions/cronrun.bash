# shellcheck shell=bash
# Completes the words of cronrun in bash. tools/install_test holds it against cronrun's usage.

_cronrun() {
    COMPREPLY=()
    [[ $COMP_CWORD != 1 ]] || mapfile -t COMPREPLY < <(compgen -W 'match next prev describe' -- "${COMP_WORDS[1]}")
}

complete -F _cronrun cronrun
