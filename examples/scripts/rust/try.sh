#!/bin/sh
# Spends a cell that the lock of lock.rs keeps: sh examples/scripts/rust/try.sh FOLDER
#
# FOLDER is made where it is not there. It gets the lock (rustc.sh), a store and transactions (spend_by_word.py), and the
# text of each command beside the one that must come. The status is 0 where all are as they must be, and 3 where the
# compiler is not there.
set -e
here=$(dirname "$(readlink -f "$0")")
ckbdev=$(readlink -f "$here/../../../ckbdev")
mkdir -p "$1"
cd "$1"
sh "$here/rustc.sh" . "$here/lock.rs"
python3 -B "$here/spend_by_word.py" .
rm -rf chain
mkdir chain
"$ckbdev" chain init <store.bin >store.out
cmp store.txt store.out
for name in opens opens-beside-another-field another-word a-word-of-a-block a-word-too-long no-word a-bare-word no-witness; do
    "$ckbdev" chain check <$name.bin >$name.out || [ $? -eq 1 ]
    cmp $name.txt $name.out
    echo "check $name: $(cat $name.out)"
done
