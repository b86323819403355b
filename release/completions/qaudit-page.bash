# Completion of qaudit-page for bash.

_qaudit_page() {
    local current=${COMP_WORDS[COMP_CWORD]} before=${COMP_WORDS[COMP_CWORD - 1]}
    case $before in
        --from | --to | --title | --convert) return ;;
    esac
    if [[ $current == -* ]]; then
        local words='--from --to --title --output --dygraphs --program --convert --converter --version --help'
        mapfile -t COMPREPLY < <(compgen -W "$words" -- "$current")
    else
        compopt -o filenames
        mapfile -t COMPREPLY < <(compgen -f -- "$current")
    fi
}
complete -F _qaudit_page qaudit-page
