# Completion of nicbench for bash.
_nicbench() {
    local word=${COMP_WORDS[COMP_CWORD]} before=${COMP_WORDS[COMP_CWORD - 1]} command=${COMP_WORDS[1]-} words
    COMPREPLY=()
    case $before in
        --vfs | --fifo | --limit | --workers | --frames) return ;;
    esac
    if ((COMP_CWORD == 1)); then
        words='run debug asm dis eeprom hash threads help --help --version'
    else
        case $command in
            run) words='--vfs --fifo --limit --help' ;;
            debug) words='--vfs --fifo --help' ;;
            eeprom) words='--load --help' ;;
            threads) words='--workers --frames --help' ;;
            asm | dis | hash) words='--help' ;;
            help) words='run debug asm dis eeprom hash threads' ;;
            *) words='' ;;
        esac
    fi
    mapfile -t COMPREPLY < <(compgen -W "$words" -- "$word")
}
complete -o default -F _nicbench nicbench
