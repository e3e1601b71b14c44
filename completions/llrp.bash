# Completions of llrp for bash: source this file, or install it as bash-completion/completions/llrp.
_llrp() {
    local word=${COMP_WORDS[COMP_CWORD]} words=
    COMPREPLY=()
    case ${COMP_WORDS[COMP_CWORD - 1]} in
        # a file, which readline completes where nothing is found here
        *'<' | *'>' | --rospec | --prefixes | --save | --access | --password-file | --answers) return ;;
        # a number, a text, or a list
        --limit | --only | --antennas | --every | --polls | --reports | --timeout | --id | --keepalive | --again | --for | --name | --power | --bind | --clients | --clock | --prefix-digits | --filter | --port | --tag | --read | --write | --epc | --lock | --antenna | --settle)
            compopt +o default
            return
            ;;
    esac
    if [ "${COMP_WORDS[COMP_CWORD - 1]}" = --to ]; then
        words='tag pure element link hex key'
    elif [ "${COMP_WORDS[COMP_CWORD - 1]}" = --names ]; then
        words='profile standard'
    elif [ "${COMP_WORDS[COMP_CWORD - 1]}" = --schemes ]; then
        words=all
    elif [ "$COMP_CWORD" -eq 1 ]; then
        words='show encode epc fields explain sim inventory loop watch stop ask access help --help --version'
    else
        case ${COMP_WORDS[1]} in
            show) words='--hex --all --json --names --keys --schemes --segments --port --limit --help' ;;
            encode) words='--hex --all --json --keys --schemes --limit --help' ;;
            inventory) words='--rospec --every --polls --reports --check --clean --json --all --timeout --limit --verbose --keys --schemes --help' ;;
            loop) words='--rospec --every --polls --reports --check --clean --json --all --help' ;;
            watch | stop)
                words='--rospec --id --every --keepalive --again --text --antennas --limit --save --verbose --for --name --power --messages --access --keys --schemes --help'
                [ "${COMP_WORDS[1]}" = watch ] || words+=' --timeout'
                ;;
            ask) words='--json --timeout --go-on --raw --help' ;;
            access) words='--tag --read --write --epc --lock --password-file --verify --antenna --settle --timeout --json --help' ;;
            sim) words='--all --bind --clients --clock --answers --ready --keep --help' ;;
            fields) words='--all --help' ;;
            explain) words='--hex --all --json --limit --only --help' ;;
            epc) words='--forms --list --json --to --prefix-digits --filter --prefixes --schemes --help' ;;
            help) words='show encode epc fields explain sim inventory loop watch stop ask access' ;;
        esac
    fi
    mapfile -t COMPREPLY < <(compgen -W "$words" -- "$word")
}
complete -o default -F _llrp llrp
