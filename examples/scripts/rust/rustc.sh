#!/bin/sh
# Builds a program in Rust: sh examples/scripts/rust/rustc.sh FOLDER PROGRAM.rs [WORD..]
#
# FOLDER is to be there. It gets PROGRAM.elf, and core and ckb.rs as libraries, which are compiled once and kept there.
# Further words are rustc's own. All of it comes from Debian's packages rustc, rust-src and lld; where one is not there,
# the status is 3. RUSTC is another compiler, and RUST_SOURCES the folder `library` of its sources.
set -e
here=$(dirname "$(readlink -f "$0")")
folder=$(readlink -f "$1") program=$(readlink -f "$2")
shift 2
rustc=${RUSTC:-/usr/bin/rustc}
library=${RUST_SOURCES:-/usr/lib/rustlib/src/rust/library}
for it in "$rustc" "$library/core/src/lib.rs" ld.lld; do
    if ! command -v "$it" >/dev/null && [ ! -e "$it" ]; then
        echo "there is no $it: the packages rustc, rust-src and lld have the compiler, the sources of core and the linker" >&2
        exit 3
    fi
done

# The target has the instructions of this machine and the atomic ones, of which a pass makes loads and stores, since a
# program runs alone. RUSTC_BOOTSTRAP allows what core is written with.
compile() {
    RUSTC_BOOTSTRAP=1 "$rustc" --target riscv64imac-unknown-none-elf -C "passes=$pass" -C opt-level=2 -C panic=abort \
        -C overflow-checks=yes -L "$folder" "$@"
}

# LLVM has had two names for that pass
pass=lower-atomic
echo '#![feature(no_core)] #![no_core]' |
    compile --crate-type rlib --crate-name probe -o "$folder/probe.rlib" - 2>/dev/null || pass=loweratomic
rm -f "$folder/probe.rlib"

if [ ! -e "$folder/libckb.rlib" ]; then
    edition=$(sed -n 's/^edition = "\(.*\)"$/\1/p' "$library/core/Cargo.toml")
    compile --crate-type rlib --crate-name core --edition "$edition" --cap-lints allow --out-dir "$folder" "$library/core/src/lib.rs"
    cd "$here"
    compile --crate-type rlib --crate-name compiler_builtins --edition 2021 --out-dir "$folder" memory.rs
    compile --crate-type rlib --crate-name ckb --edition 2021 --out-dir "$folder" ckb.rs
fi
# a panic names its source, and with the path as it stands here the program would be another in another folder
cd "$(dirname "$program")"
name=$(basename "$program" .rs)
compile --crate-type bin --crate-name "$name" --edition 2021 --extern ckb -C linker-flavor=ld.lld -C linker=ld.lld \
    -C relocation-model=static -C strip=symbols -C "link-arg=-T$here/../script.ld" -C link-arg=-zmax-page-size=4 \
    "$@" "$name.rs" -o "$folder/$name.elf"
