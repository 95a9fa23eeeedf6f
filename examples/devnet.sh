#!/bin/sh
# A chain with funded accounts in one command: sh examples/devnet.sh FOLDER [--without-signatures]
#
# FOLDER is made, and must not be there. It gets a store with ten blocks in FOLDER/chain, and in FOLDER/accounts.txt what
# is printed: the accounts with their keys, the cells that they have, and the code of the locks. The accounts' cells open
# by a signature over secp256k1 where the compiler and the source of the library can be had (examples/signature); else,
# or with the option, anyone may spend them, and a line says so.
set -e
here=$(dirname "$(readlink -f "$0")")
name=ckbdev
case ${1:-} in -*) set -- ;; esac
if [ $# -eq 0 ] || [ $# -gt 2 ] || [ "${2:---without-signatures}" != --without-signatures ]; then
    echo 'usage: sh examples/devnet.sh FOLDER [--without-signatures]' >&2
    exit 2
fi
mkdir "$1"
folder=$(readlink -f "$1") without=$2
here=${here%/examples}
. "$here/tools/program.sh"

# Builds the lock, or says why there is none.
build_lock() {
    if [ -n "$without" ]; then
        why='it was asked for none'
    elif ! command -v riscv64-unknown-elf-gcc >/dev/null; then
        why="the compiler is not there: Debian's packages gcc-riscv64-unknown-elf and picolibc-riscv64-unknown-elf have it"
    elif sh "$here/examples/signature/build.sh" "$folder" >"$folder/build.log" 2>&1; then
        return
    else
        why="it was not built: $folder/build.log says why"
    fi
    say "no lock asks for a signature, so anyone may spend the accounts' cells; $why"
    return 1
}

# A case for `rt try`: its place, its word and its input.
makes() {
    printf '%s\n' "$folder/chain" "$2" >"$room/cases/$1.args"
    cat "$3" >"$room/cases/$1"
}

# Without a build the program is compiled once, for the store and for the blocks, which are those that would be mined.
run_unproved() {
    say 'unproved: there is no build of these sources, so rt try compiles the program once, which takes a minute or two;' \
        './ckbdev --build (or the gate, rt ci) proves and builds it'
    room=$(mktemp -d)
    trap 'rm -rf "$room"' EXIT
    mkdir "$room/cases" "$room/ends"
    makes 1 init "$folder/store.bin"
    makes 2 import "$folder/blocks.bin"
    makes 3 tip /dev/null
    python3 -B "$here/tools/unproved.py" ckbdev --cases "$room/cases" "$room/ends" </dev/null
    cat "$room/ends/1" "$room/ends/3"
    if cat "$room"/ends/*.status | grep -qvx 0; then
        say 'the chain is not as it should be'
        exit 1
    fi
}

lock=
build_lock && lock=$folder/lock.elf
python3 -B "$here/examples/make_devnet.py" "$folder" ${lock:+"$lock"} >"$folder/accounts.txt"
cat "$folder/accounts.txt"
mkdir "$folder/chain"
if is_built; then
    "$here/ckbdev" "$folder/chain" init <"$folder/store.bin"
    python3 -B "$here/examples/mine.py" "$folder/chain" 10
else
    run_unproved
fi
echo "the chain is in $folder/chain; examples/pay.py pays from one account to another, examples/page.py shows the chain"
