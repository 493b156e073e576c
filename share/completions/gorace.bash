# Completions of gorace for bash. Made by docs/make_pages.py from what gorace --help says.

_gorace() {
    local word=${COMP_WORDS[COMP_CWORD]} before=${COMP_WORDS[COMP_CWORD - 1]} command='' offers='' at
    COMPREPLY=()
    case $before in
        # After < and > comes a file.
        *[\<\>]) compopt -o default 2>/dev/null; return ;;
        # After these comes a number, or several.
        --block | --limit | --most | --picks | --runs | --seed | --shards | --workers | =) return ;;
    esac
    for ((at = 1; at < COMP_CWORD; at++)); do
        if [[ ${COMP_WORDS[at]} != -* ]]; then
            command=${COMP_WORDS[at]}
            break
        fi
    done
    case $command in
        '') [[ $word == -* ]] && offers='-h --help -V --version' || offers='check explain edges run race explore witness draw predict help' ;;
        help) offers='check explain edges run race explore witness draw predict help' ;;
        check) offers='--shards --block --plain -h --help' ;;
        explain) offers='-h --help' ;;
        edges) offers='-h --help' ;;
        run) offers='--workers --seed --limit --picks -h --help' ;;
        race) offers='--workers --seed --limit --picks --shards --block --plain -h --help' ;;
        explore) offers='--runs --limit --reduce -h --help' ;;
        witness) offers='-h --help' ;;
        draw) offers='--svg -h --help' ;;
        predict) offers='--turned --most -h --help' ;;
    esac
    COMPREPLY=($(compgen -W "$offers" -- "$word"))
}

complete -F _gorace gorace
