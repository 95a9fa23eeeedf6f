#!/bin/sh
# The first chain, command by command, with the lines of each:
#
#     sh examples/first-chain.sh [FOLDER]
#
# FOLDER is made, and must not be there; without one it is a new folder among the temporary files. It is left there.
# Where there is no build of these sources, `rt try` compiles the program once, unproved, for all commands.
if [ $# -gt 0 ]; then
    mkdir "$1" && chain=$(cd "$1" && pwd) || exit 1
else
    chain=$(mktemp -d) || exit 1
fi
cd "$(dirname "$0")/.." || exit 1

# Each command with the status that it has to end with, as it is shown, its word, and its input.
each() {
    "$1" 0 'cat examples/spec.bin examples/genesis.bin | ./ckbdev "$chain" init' init examples/spec.bin examples/genesis.bin
    # 1: items are refused
    "$1" 1 './ckbdev "$chain" import < examples/first-blocks.bin' import examples/first-blocks.bin
    "$1" 0 './ckbdev "$chain" tip' tip /dev/null
}

ended_with() {
    if [ "$1" -ne "$2" ]; then
        echo "it ended with status $1, and not $2" >&2
        exit 1
    fi
}

# Shows a command and runs it.
runs() {
    echo "\$ $2"
    sh -c "$2"
    ended_with $? "$1"
}

# Makes a case for `rt try` of a command. Their names are their places.
makes() {
    shift 2
    count=$((count + 1))
    printf '%s\n' "$chain" "$1" >"$room/cases/$count.args"
    shift
    cat "$@" >"$room/cases/$count"
}

# Shows a command, and what came of its case.
shows() {
    echo "\$ $2"
    count=$((count + 1))
    cat "$room/ends/$count"
    ended_with "$(cat "$room/ends/$count.status")" "$1"
}

export chain
name=ckbdev here=$PWD
. tools/program.sh
if is_built; then
    each runs
else
    say 'unproved: there is no build of these sources, so rt try compiles the program once and runs three commands, which' \
        'takes a minute or two; ./ckbdev --build (or the gate, rt ci) proves and builds it'
    room=$(mktemp -d) || exit 1
    trap 'rm -rf "$room"' EXIT
    trap 'exit 130' HUP INT TERM
    mkdir "$room/cases" "$room/ends" && count=0
    each makes
    python3 -B tools/unproved.py ckbdev --cases "$room/cases" "$room/ends" </dev/null || exit
    count=0
    each shows
fi
echo "the chain is in $chain"
