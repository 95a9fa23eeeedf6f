#!/bin/sh
# Builds the files of this folder anew, or those that are named: sh examples/scripts/build.sh [NAME..]
set -e
cd "$(dirname "$0")"
OBJCOPY=${OBJCOPY:-llvm-objcopy}
for name in ${@:-calls checks code count exit global table}; do
    case $name in
        calls | global | table) sh gcc.sh $name.c -o $name.elf ;;
        *)
            clang --target=riscv64 -march=rv64imc -mabi=lp64 -Oz -ffreestanding -fno-builtin -Wall -Wextra \
                -nostdlib -static -fuse-ld=lld -Wl,-T,bare.ld -Wl,-z,max-page-size=4 -Wl,--strip-all $name.c -o $name.elf
            "$OBJCOPY" --strip-sections $name.elf ;;
    esac
    chmod 644 $name.elf
done
