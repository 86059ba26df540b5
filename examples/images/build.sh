#!/bin/sh
# Builds the images with Debian's gcc-riscv64-unknown-elf (binutils 2.40), and shows what they are.
set -e
cd "$(dirname "$0")"
tools=riscv64-unknown-elf
for name in pass data; do
    $tools-as -march=rv32i -mabi=ilp32 -o $name.o $name.s
done

# pass: the text alone in the table, which needs no page of its own
$tools-ld -m elf32lriscv -N -Ttext=0x80000000 -s -o pass.elf pass.o
# data: text and data apart
$tools-ld -m elf32lriscv -n -z max-page-size=64 --no-relax -Ttext=0x80000000 -Tdata=0x80001000 -s -o data.elf data.o
# headers: as the linker places an image by itself, its headers' page before the text
$tools-ld -m elf32lriscv -z max-page-size=256 -z common-page-size=256 -Ttext=0x80000000 -s -o headers.elf pass.o

rm -f pass.o data.o
for name in pass data headers; do
    $tools-readelf -lhW $name.elf
done
