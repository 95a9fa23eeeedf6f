# shellcheck shell=sh disable=SC2154
# What is wrong with words that are not in the grammar of docs/COMMANDS.md, in one line. The scripts ckbdev, ckbjson
# and ckbtrace take this in where there are such words: the first two have `commands` and `is_command`, and each but ckbdev
# sentences of its own.

# A word as it can stand in a line.
shown() {
    shown=$(printf '%s' "$1" | LC_ALL=C tr '[:cntrl:]' '?')
    [ "${#shown}" -le 90 ] || shown=$(printf '%.90s..' "$shown")
    printf "'%s'" "$shown"
}

# The command that was perhaps meant by a word: nothing, where none is like it or there is no Python.
nearest() {
    python3 -IS -c 'import difflib, sys
print(*difflib.get_close_matches(sys.argv[1].lower(), sys.argv[2].split(), 1))' "$1" "$commands" </dev/null 2>/dev/null
}

# Whether a word that stands alone was to be an option.
is_option() {
    case $1 in
        -* | help | version | build) [ ! -d "$1" ] ;;
        *) return 1 ;;
    esac
}

# Says what is wrong with words whose second is no command.
say_unknown() {
    if [ $# -eq 0 ]; then
        say 'there are no words'
    elif is_command "$1"; then
        say "the folder comes first: ckbdev FOLDER $1"
    elif [ $# -eq 1 ] && is_option "$1"; then
        say "there is no option $(shown "$1"): --help, --version and --build stand alone"
    elif [ $# -eq 1 ]; then
        say "there is no command after the folder $(shown "$1")"
    else
        near=$(nearest "$2")
        [ -z "$near" ] || near="; did you mean '$near'?"
        say "there is no command $(shown "$2")$near"
    fi
}

# Says what is wrong with words whose second is a command, which the program has refused.
say_refused() {
    folder=$1 command=$2
    shift 2
    case $command in
        exec | header | json | migrate) count=1 form=N takes='one word after it, N' ;;
        list | watch) count=1 form=HASH takes='one word after it, HASH' ;;
        cell | dao) count=2 form='HASH N' takes='two words after it, HASH and N' ;;
        make | soak) count=2 form='N M' takes='two words after it, N and M' ;;
        *) count=0 form='' takes='no word after it' ;;
    esac
    if [ -z "$folder" ]; then
        say 'the first word, the folder, is empty'
    elif [ $# -ne $count ]; then
        say "$command takes $takes, and here $(counted $#)"
    elif ! why=$(why_bad "$@"); then
        say "$why"
    else
        say 'a word is no text in UTF-8'
    fi
}

counted() {
    case $1 in
        0) echo 'there is none' ;;
        1) echo 'there is one' ;;
        *) echo "there are $1" ;;
    esac
}

# Fails where a word after `command` has not the form that `form` names, and prints why.
why_bad() {
    for it in $form; do
        case $command:$it in
            *:HASH) must_be_hash "$1" ;;
            exec:N) must_be_number 1099511627776 ', the budget in cycles, is at most 1099511627776 (2^40)' "$1" ;;
            make:M) must_be_number 20000 ' is at most 20000' "$1" ;;
            soak:M) must_be_number 100 ' is at most 100' "$1" ;;
            *) must_be_number 18446744073709551615 ' is at most 18446744073709551615 (2^64 - 1)' "$1" ;;
        esac || return 1
        shift
    done
}

# HASH of `command`.
must_be_hash() {
    digits=${1#0x}
    case $1 in
        0x*[!0123456789abcdef]*) why='it has a character that is none of 0 to 9 and a to f' ;;
        0x*) [ ${#digits} -ne 64 ] || return 0
            why="it has ${#digits} digits" ;;
        *) why='it does not begin with 0x' ;;
    esac
    echo "HASH of $command is 0x and 64 hex digits in lower case, and $(shown "$1") is not: $why"
    return 1
}

# `it` of `command`, a number: the limit, what is said of it, the word.
must_be_number() {
    case $3 in
        '' | *[!0123456789]* | 0?*)
            echo "$it of $command is a number in decimal digits, without a sign or leading zeros, and $(shown "$3") is not" ;;
        *)  ! is_above "$3" "$1" && return
            echo "$it of $command$2, and $(shown "$3") is above it" ;;
    esac
    return 1
}

# Whether a number is above another: both in digits without leading zeros, and at most 20 of the other.
is_above() {
    [ ${#1} -le ${#2} ] || return 0
    [ ${#1} -eq ${#2} ] || return 1
    # a shell counts to 19 digits
    low=${1#"${1%??????????}"} limit=${2#"${2%??????????}"}
    if [ ${#1} -le 18 ]; then
        [ "$1" -gt "$2" ]
    elif [ "${1%??????????}" -eq "${2%??????????}" ]; then
        [ "$low" -gt "$limit" ]
    else
        [ "${1%??????????}" -gt "${2%??????????}" ]
    fi
}
