#!/bin/sh
# Builds the lock of this folder: [WINDOW=6] sh examples/signature/build.sh FOLDER
# or another program over libsecp256k1: sh examples/signature/build.sh FOLDER NAME.c
#
# FOLDER is to be there. It gets lock.elf or NAME.elf, and libsecp256k1 as Debian's source package has it, which
# apt-get fetches by a list of its own: nothing of the system is changed, and no right of the administrator is
# needed. The status is 3 where the package cannot be had.
set -e
here=$(dirname "$(readlink -f "$0")")
scripts=$here/../scripts
source=$(readlink -f "${2:-$here/lock.c}")
cd "$1"

# apt-get with a list, a state and a cache in this folder
apt() {
    apt-get -qq -o Dir::Etc::SourceList="$PWD/apt/list" -o Dir::Etc::SourceParts="$PWD/apt/none" \
        -o Dir::State::Lists="$PWD/apt/lists" -o Dir::Cache="$PWD/apt" -o APT::Sandbox::User="$(id -un)" "$@"
}

fetch() {
    mkdir -p apt/none apt/lists/partial apt/archives/partial
    echo 'deb-src [signed-by=/usr/share/keyrings/debian-archive-keyring.gpg] http://deb.debian.org/debian bookworm main' \
        >apt/list
    apt update && apt source --download-only libsecp256k1 && rm -rf apt
}

if [ ! -d secp256k1 ]; then
    if ! fetch >fetch.log 2>&1; then
        echo "the source package libsecp256k1 cannot be had by apt-get; $PWD/fetch.log says why" >&2
        exit 3
    fi
    mkdir secp256k1.part
    tar -xJf libsecp256k1_*.orig.tar.xz -C secp256k1.part --strip-components 1
    mv secp256k1.part secp256k1
fi
# the tables of the library's own window, of 15 bits, take 1 MiB
sh "$scripts/gcc.sh" --picolibc -I . -I secp256k1/include -I "$here/../../bench" -ffunction-sections -fdata-sections \
    -Wno-unused-function "-DECMULT_WINDOW_SIZE=${WINDOW:-6}" -DECMULT_GEN_PREC_BITS=2 -DENABLE_MODULE_RECOVERY \
    -DUSE_EXTERNAL_DEFAULT_CALLBACKS "$source" secp256k1/src/secp256k1.c secp256k1/src/precomputed_ecmult.c \
    secp256k1/src/precomputed_ecmult_gen.c -o "$(basename "$source" .c).elf"
