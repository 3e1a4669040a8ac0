# The files of a command: which of its words are inputs and outputs, and the files that stand for
# pipes and for standard output. nfq reads this file; it isn't run. $work is nfq's own folder,
# $command the command; `start` runs a command with nfq's standard input.
# shellcheck shell=sh disable=SC2154,SC2034,SC3013

# Sets kind to what the N-th argument of a command is: in, out, or nothing.
kind_of() { # COMMAND N
    case $1:$2 in
        play:[123] | live:[123] | list:[123] | audit:[1234] | migrate:1) kind=in ;;
        play:[456] | live:[456] | list:4 | gen:[345] | migrate:2) kind=out ;;
        *) kind= ;;
    esac
}

# Sets name to what the help calls the N-th argument of a command.
name_of() { # COMMAND N
    case $1:$2 in
        migrate:1) name=OLD ;;
        migrate:2) name=NEW ;;
        audit:4) name=JOURNAL ;;
        *:1) name=RULES ;;
        *:2) name=SCRIPT ;;
        *:3) name=IN ;;
        *:4) name=OUT ;;
        *:5) name=LEDGER ;;
        *:6) name=JOURNAL ;;
    esac
}

# Whether a command has as many words as it takes.
is_whole() { # COMMAND COUNT
    case $1:$2 in
        play:6 | live:[789] | list:4 | gen:5 | migrate:2 | audit:4) return 0 ;;
    esac
    return 1
}

# Where a word is standard input or output, or a pipe, a file of its own stands for it: in N or out
# N below $work. What is beyond the largest input isn't read.
own_input() { # N WORD
    own=$2
    [ -p "$2" ] || return 0
    own=$work/in$1
    case $2 in
        /dev/stdin | /dev/fd/0) start head -c 536870913 ;;
        *) start head -c 536870913 "$2" ;;
    esac >"$own" 2>/dev/null || own=$2
}

own_output() { # N WORD
    own=$2
    case $2 in
        /dev/stdout | /dev/fd/1) own=$work/out$1 ;;
        *) [ ! -p "$2" ] || own=$work/out$1 ;;
    esac
}

# Hands on what was written to a file that stands for a pipe or standard output.
hand_on() { # N WORD
    [ -f "$work/out$1" ] || return 0
    case $2 in
        /dev/stdout | /dev/fd/1) start cat "$work/out$1" ;;
        *) start sh -c 'cat "$1" >"$2"' - "$work/out$1" "$2" ;;
    esac 2>/dev/null
}

# Whether pipes and standard output get files of their own: where the words are as many as they must
# be, and no output is named twice.
is_mapped() { # COMMAND WORD..
    is_whole "$1" $(($# - 1)) || return 1
    case $1 in
        play | live) [ "$5" != "$6" ] && [ "$5" != "$7" ] && [ "$6" != "$7" ] ;;
        gen) [ "$4" != "$5" ] && [ "$4" != "$6" ] && [ "$5" != "$6" ] ;;
    esac
}

# Runs the command with such files in the place of pipes.
make_run() { # COMMAND WORD..
    at=0 count=$#
    while [ "$at" -lt "$count" ]; do
        kind_of "$command" "$at"
        own=$1
        case $kind in
            in) own_input "$at" "$1" ;;
            out) own_output "$at" "$1" ;;
        esac
        shift
        set -- "$@" "$own"
        at=$((at + 1))
    done
    run "$@"
}

# Notes which outputs are inputs, too, as `OUTPUT:INPUT`, by their places.
note_pairs() { # WORD..
    to=0
    for output in "$@"; do
        to=$((to + 1)) from=0
        kind_of "$command" "$to"
        [ "$kind" = out ] && [ -f "$output" ] || continue
        for input in "$@"; do
            from=$((from + 1))
            kind_of "$command" "$from"
            [ "$kind" = in ] && [ "$output" -ef "$input" ] || continue
            pairs="$pairs $to:$from"
        done
    done
}

# Sets word to the N-th of the words.
nth() { # N WORD..
    shift "$1"
    word=${1-}
}

# Says which inputs are replaced. Where an output couldn't be written, those before it were.
say_replaced() { # WORD..
    for pair in $pairs; do
        nth "${pair#*:}" "$@"
        [ "$status" -eq 0 ] || [ "$word" -nt "$work/begun" ] || continue
        name_of "$command" "${pair#*:}"
        replaced=$name
        name_of "$command" "${pair%:*}"
        say "$word: this input, $replaced, was replaced by the output $name"
    done
}

# Hands on the outputs that have files of their own, in their order.
hand_all_on() { # WORD..
    at=0 ended=$status
    for word in "$@"; do
        at=$((at + 1))
        kind_of "$command" "$at"
        [ "$kind" != out ] || hand_on "$at" "$word" || ended=3
    done
    status=$ended
}

# Sets word to the file that holds the N-th of the words.
file_of() { # N WORD..
    nth "$@"
    if [ -f "$work/in$1" ]; then word=$work/in$1
    elif [ -f "$work/out$1" ]; then word=$work/out$1
    fi
}
