# bash completion for shelf, made from the table of the commands
_shelf() {
    local word=${COMP_WORDS[COMP_CWORD]} before=${COMP_WORDS[COMP_CWORD - 1]} words=
    COMPREPLY=()
    if [ "$COMP_CWORD" -eq 1 ]; then
        words='check sheet show pull pad rewrite move help --help --version'
    elif [ "$before" = help ]; then
        words='check sheet show pull pad rewrite move help'
    elif [[ $word == -* && $before != @(--files-from|--ledger) ]]; then
        case ${COMP_WORDS[1]} in
            check) words='--files-from -0 --form --pad --json --quiet --help --version' ;;
            sheet) words='--pad --help --version' ;;
            show) words='--pad --help --version' ;;
            pull) words='--station --pad --help --version' ;;
            pad) words='--replace --quiet --help --version' ;;
            rewrite) words='--pad --replace --quiet --help --version' ;;
            move) words='--ledger --pad --replace --dry-run --quiet --help --version' ;;
            help) words='--help --version' ;;
        esac
    fi
    # Where there are no words, files are offered.
    [ -z "$words" ] || mapfile -t COMPREPLY < <(compgen -W "$words" -- "$word")
}
complete -o default -F _shelf shelf
