#!/bin/sh
# Nanoseconds of Ram::get, Ram::set and Ram::text: bench/memory.sh [MILLIONS of calls of each kind, 200 if left out]
# Makes a program over the repository's crates in a folder of its own, builds it by rt, and runs it. Not part of the gate.
set -e
here=$(cd "$(dirname "$0")/.." && pwd)
millions=${1:-200}
work=$(mktemp -d)
trap 'rm -rf "$work"' EXIT
mkdir -p "$work/crates/memory_speed/src" "$work/crates/memory_speed/specs"
for crate in fsim_base elf_image phys_mem; do
    mkdir "$work/crates/$crate"
    for part in src specs proofs; do
        [ -d "$here/crates/$crate/$part" ] && cp -r "$here/crates/$crate/$part" "$work/crates/$crate/"
    done
done
grep -E '^(fsim_base|elf_image|phys_mem):' "$here/crates.txt" >"$work/crates.txt"
echo 'memory_speed: phys_mem elf_image fsim_base anyhow' >>"$work/crates.txt"
echo '/out/' >"$work/.gitignore"
(cd "$work" && git init -q)
: >"$work/crates/memory_speed/specs/Lib.antt"
cat >"$work/crates/memory_speed/src/main.rt" <<EOF
//! Times accesses to RAM of 16 MiB.
#![tactic(auto)]

use anyhow::{Context, anyhow};
use elf_image::{Image, Segment, Segments};
use fsim_base::{Bytes, RamRange, Width};
use phys_mem::Ram;
use std::time::Instant;

const CALLS: u32 = ${millions}_000_000;
const BASE: u32 = 0x8000_0000;
const SIZE: u32 = 0x0100_0000;
const TEXT: u32 = 0x0001_0000;

/// Loads words of RAM, each so many words behind the one before, in a region of 2^n words.
fn gets(ram: &Ram, stride: u32, mask: u32) -> u32
{
    let mut sum: u32 = 0;
    let mut place: u32 = 0;
    for _ in 0..CALLS {
        sum ^= ram.get(BASE + place % (SIZE / 4) * 4, Width::Word).unwrap_or(1);
        place = place.wrapping_add(stride) & mask;
    }
    sum
}

fn sets(ram: &mut Ram, stride: u32, mask: u32) -> u32
{
    let mut sum: u32 = 0;
    let mut place: u32 = 0;
    for _ in 0..CALLS {
        sum ^= ram.set(BASE + place % (SIZE / 4) * 4, Width::Word, sum).unwrap_or(1);
        place = place.wrapping_add(stride) & mask;
    }
    sum
}

fn texts(ram: &Ram, stride: u32, mask: u32) -> u32
{
    let mut sum: u32 = 0;
    let mut place: u32 = 0;
    for _ in 0..CALLS {
        sum ^= ram.text(BASE + place % (SIZE / 4) * 4).unwrap_or(1);
        place = place.wrapping_add(stride) & mask;
    }
    sum
}

/// The loop alone.
fn nothing(stride: u32, mask: u32) -> u32
{
    let mut sum: u32 = 0;
    let mut place: u32 = 0;
    for _ in 0..CALLS {
        sum ^= BASE + place % (SIZE / 4) * 4;
        place = place.wrapping_add(stride) & mask;
    }
    sum
}

fn measure(
    rt: &HostRuntime,
    ram: &mut Ram,
    name: &str,
    stride: u32,
    mask: u32,
) -> anyhow::Result<()> {
    let start = Instant::now(rt).context("the clock")?;
    let none = nothing(stride, mask);
    let empty = start.elapsed(rt).context("the clock")?.as_millis();
    let start = Instant::now(rt).context("the clock")?;
    let got = gets(ram, stride, mask);
    let get = start.elapsed(rt).context("the clock")?.as_millis();
    let start = Instant::now(rt).context("the clock")?;
    let put = sets(ram, stride, mask);
    let set = start.elapsed(rt).context("the clock")?.as_millis();
    let start = Instant::now(rt).context("the clock")?;
    let read = texts(ram, stride, 16383);
    let fetch = start.elapsed(rt).context("the clock")?.as_millis();
    println!(rt; "{name}: milliseconds of {CALLS} loops {empty}, with get {get}, with set {set}, with text {fetch}")?;
    println!(rt; "sums {none} {got} {put} {read}")?;
    Ok(())
}

fn main(rt: HostRuntime) -> anyhow::Result<()> {
    let alloc = rt.alloc();
    let text = Segment {
        index: 0,
        addr: BASE,
        size: TEXT,
        exec: true,
        bytes: Bytes::new(vec![in alloc; 0x13; 4096]?),
    };
    let image = Image {
        entry: BASE,
        segments: Segments::new(vec![in alloc; text]?),
    };
    let range = RamRange {
        base: BASE,
        size: SIZE,
    };
    if !image.sound(range) {
        return Err(anyhow!("the image isn't sound"));
    }
    let Ok(mut ram) = Ram::new(alloc, range, &image) else {
        return Err(anyhow!("no memory"));
    };
    measure(&rt, &mut ram, "in 64 KiB", 1, 16383)?;
    measure(&rt, &mut ram, "across 16 MiB", 1031, 4_194_303)
}
EOF
cd "$work/crates/memory_speed"
rt run 2>"$work/log" || { tail -40 "$work/log"; exit 1; }
