#!/bin/sh
# Builds the images with Debian's clang and lld 14.0.6.
set -e
cd "$(dirname "$0")"

# image, source, link script
build() {
    clang --target=riscv32 -march=rv32im -mabi=ilp32 -O1 -Wall -Wextra -ffreestanding -nostdlib -fno-pic -static \
        -fuse-ld=lld -mno-relax -Wl,--build-id=none -Wl,-T,"$3" -Wl,-z,max-page-size=4096 -o "$1" start.S "$2"
}

for name in jump-to-data own-text recursion nested handler-in-data timer-always race; do
    build $name.elf $name.c link.ld
done
build recursion-stack-first.elf recursion.c stack-first.ld
