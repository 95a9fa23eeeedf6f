#!/bin/sh
# Builds a program with Debian's gcc-riscv64-unknown-elf: sh examples/scripts/gcc.sh [--picolibc] WORD..
# The words are gcc's own: SOURCE.c -o PROGRAM.elf. With --picolibc it has the C library of that name, of Debian's
# picolibc-riscv64-unknown-elf, whose text goes to debug printing.
set -e
here=$(dirname "$0")
if [ "$1" = --picolibc ]; then
    shift
    set -- --specs=picolibc.specs --crt0=hosted "$here/picolibc.c" "$@"
else
    set -- -ffreestanding -nostdlib "$here/start.S" "$@" -lgcc
fi
exec riscv64-unknown-elf-gcc -O2 -march=rv64imc -mabi=lp64 -static -Wall -Wextra -I "$here" \
    -T "$here/script.ld" -Wl,-z,max-page-size=4 -s "$@"
