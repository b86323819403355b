# Completion of qaudit-matrix for bash.

_qaudit_matrix() {
    local current=${COMP_WORDS[COMP_CWORD]} before=${COMP_WORDS[COMP_CWORD - 1]}
    case $before in
        --pattern | --jobs | --convert) return ;;
        --fail-on)
            mapfile -t COMPREPLY < <(compgen -W 'must should any' -- "$current")
            return
            ;;
    esac
    if [[ $current == -* ]]; then
        local words='--pattern --pages --json --against --history --known --write-known --fail-on --junit --sarif --annotate --output --jobs --dygraphs --program --convert --converter --version --help'
        mapfile -t COMPREPLY < <(compgen -W "$words" -- "$current")
    else
        compopt -o filenames
        mapfile -t COMPREPLY < <(compgen -f -- "$current")
    fi
}
complete -F _qaudit_matrix qaudit-matrix
