# Completion of ospf-plan for bash.
_ospf_plan() {
    local current=${COMP_WORDS[COMP_CWORD]} before=${COMP_WORDS[COMP_CWORD - 1]}
    COMPREPLY=()
    case $before in
        --dump | --script | --out | --save)
            compopt -o filenames 2>/dev/null
            mapfile -t COMPREPLY < <(compgen -f -- "$current")
            ;;
        *)
            mapfile -t COMPREPLY < <(compgen -W "--dump --script --out --save --help --version" -- "$current")
            ;;
    esac
}
complete -F _ospf_plan ospf-plan
