# Completion of nfq for bash: commands, and after them the words that each takes.
#   source tools/nfq.bash     in ~/.bashrc, by its whole name
# It completes `nfq`, `./nfq` and any other path to it.

_nfq() {
    local word=${COMP_WORDS[COMP_CWORD]} command=${COMP_WORDS[1]-} place=$((COMP_CWORD - 1))
    COMPREPLY=()
    if [ "$COMP_CWORD" -eq 1 ]; then
        mapfile -t COMPREPLY < <(compgen -W "play live list gen trial migrate audit build help \
            version --help --version -h -V" -- "$word")
        return
    fi
    case $word in
        -*)
            case $command in
                build) mapfile -t COMPREPLY < <(compgen -W "--release --help" -- "$word") ;;
                play | live | list | gen | trial | migrate | audit)
                    [ "$place" -ne 1 ] || COMPREPLY=(--help) ;;
            esac
            return ;;
    esac
    case $command:$place in
        play:[1-6] | live:[1-6] | list:[1-4] | gen:[3-5] | migrate:[12] | audit:[1-4])
            compopt -o filenames 2>/dev/null
            mapfile -t COMPREPLY < <(compgen -f -- "$word") ;;
        live:7) mapfile -t COMPREPLY < <(compgen -W "1 2 4 8 16 32 64" -- "$word") ;;
        live:[89]) mapfile -t COMPREPLY < <(compgen -W "1 2 4 8 16" -- "$word") ;;
        gen:2 | trial:2) mapfile -t COMPREPLY < <(compgen -W "1000 10000 100000 200000" -- "$word") ;;
        build:2)
            compopt -o filenames 2>/dev/null
            mapfile -t COMPREPLY < <(compgen -d -- "$word") ;;
    esac
}

complete -F _nfq nfq
