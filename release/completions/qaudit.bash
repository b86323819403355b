# Completion of qaudit for bash.

_qaudit() {
    local current=${COMP_WORDS[COMP_CWORD]}
    if [ "$COMP_CWORD" -eq 1 ]; then
        mapfile -t COMPREPLY < <(compgen -W 'check explain' -- "$current")
    elif [ "${COMP_WORDS[1]}" = check ] || [ "$COMP_CWORD" -eq 2 ]; then
        compopt -o filenames
        mapfile -t COMPREPLY < <(compgen -f -- "$current")
    fi
}
complete -F _qaudit qaudit
