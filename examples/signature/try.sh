#!/bin/sh
# Spends cells by signatures, on a chain of its own: sh examples/signature/try.sh FOLDER
#
# FOLDER is made where it is not there. It gets the lock (build.sh), the chain (make_chain.py) and a store, and each
# command's text beside the one that must come. The status is 0 where all are as they must be, and 3 where the source of
# libsecp256k1 cannot be had.
set -e
here=$(dirname "$(readlink -f "$0")")
ckbdev=$(readlink -f "$here/../../ckbdev")
mkdir -p "$1"
cd "$1"
sh "$here/build.sh" .
python3 -B "$here/make_chain.py" .
rm -rf chain
mkdir chain

# Gives NAME.bin to a command, and compares its text with NAME.txt. It ends with status 1 where a line is `refused`.
must_answer() {
    status=0 wanted=0
    "$ckbdev" chain "$1" <"$2.bin" >"$2.out" || status=$?
    grep -q '^refused' "$2.txt" && wanted=1
    cmp "$2.txt" "$2.out"
    [ "$status" -eq $wanted ]
    echo "$1 $2: $(tail -n 1 "$2.out")"
}

must_answer init store
must_answer import funds
for name in signed flipped-r flipped-s flipped-id flipped-first flipped-of-group flipped-past flipped-unsigned \
    another-key another-fee a-witness-more a-witness-less no-witness; do
    must_answer check $name
done
must_answer import spends
