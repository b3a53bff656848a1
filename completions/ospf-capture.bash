# Completion of ospf-capture for bash.
_ospf_capture() {
    local current=${COMP_WORDS[COMP_CWORD]}
    COMPREPLY=()
    case $current in
        -*)
            mapfile -t COMPREPLY < <(compgen -W "--out --against --keep-flushed --help --version" -- "$current")
            ;;
        *)
            compopt -o filenames 2>/dev/null
            mapfile -t COMPREPLY < <(compgen -f -- "$current")
            ;;
    esac
}
complete -F _ospf_capture ospf-capture
