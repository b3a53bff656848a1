# Completion of ospf-study for bash.
_ospf_study() {
    local current=${COMP_WORDS[COMP_CWORD]}
    COMPREPLY=()
    case $current in
        -?*)
            mapfile -t COMPREPLY < <(compgen -W "--dump --baseline --names --keep-going --verbose --format --out --help --version" -- "$current")
            ;;
        *)
            compopt -o filenames 2>/dev/null
            mapfile -t COMPREPLY < <(compgen -f -- "$current")
            ;;
    esac
}
complete -F _ospf_study ospf-study
