#!/bin/sh
# Builds the images, as they are kept here, by Debian's gcc-riscv64-unknown-elf.
cd "$(dirname "$0")" || exit
build() {
    riscv64-unknown-elf-gcc -march=rv32im -mabi=ilp32 -O2 -fno-ipa-cp -g -fdebug-prefix-map="$PWD"=. \
        -Wall -Wextra -ffreestanding -nostdlib -nostartfiles -fno-pic -static \
        -Wl,--build-id=none -Wl,-T,link.ld -Wl,-z,max-page-size=4096 "$@" start.S heap.c
}
build -DCHOICE=BY_BRANCH -o branch.elf && build -DCHOICE=BY_ARITHMETIC -o arithmetic.elf &&
    build -DCHOICE=BY_SELECTION -o selection.elf
