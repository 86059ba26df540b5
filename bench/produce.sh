#!/bin/sh
# Milliseconds of FuncSide::produce_into, with an undo step for each entry and a Commit for every 64 of them, on the loops of
# bench/func.sh:
# bench/produce.sh [MILLIONS of entries, 10 if left out]
# Makes a program over the repository's crates in a folder of its own, builds it by rt, and runs it. Not part of the gate.
set -e
here=$(cd "$(dirname "$0")/.." && pwd)
millions=${1:-10}
work=$(mktemp -d)
trap 'rm -rf "$work"' EXIT
mkdir -p "$work/crates/entry_speed/src" "$work/crates/entry_speed/specs" "$work/crates/entry_speed/proofs/trace/Trace/has_room" \
    "$work/crates/entry_speed/proofs/trace/make"
# the crates that func_model stands on, and itself
needed=$(awk -F: '
    function visit(crate,    below, number, place) {
        if (!(crate in stands_on) || crate in seen) return
        seen[crate]
        print crate
        number = split(stands_on[crate], below, " ")
        for (place = 1; place <= number; place++) visit(below[place])
    }
    !/^#/ && split($1, words, " ") { stands_on[words[1]] = $2 }
    END { visit("func_model") }' "$here/crates.txt")
for crate in $needed; do
    mkdir "$work/crates/$crate"
    for part in src specs proofs; do
        [ -d "$here/crates/$crate/$part" ] && cp -r "$here/crates/$crate/$part" "$work/crates/$crate/"
    done
    grep "^$crate[: ]" "$here/crates.txt" >>"$work/crates.txt"
done
echo 'entry_speed: func_model undo_journal mono_model elf_image device_bus branch_predictor trace_entry rollback_cmds fsim_base anyhow' >>"$work/crates.txt"
echo '/out/' >"$work/.gitignore"
(cd "$work" && git init -q)
: >"$work/crates/entry_speed/specs/Lib.antt"
: >"$work/crates/entry_speed/proofs/Lib.antt"
cat >"$work/crates/entry_speed/proofs/trace/Trace/has_room/Answers.antt" <<EOF
use Rattle.std.proofs.Common.{ℕ, List, ◌-◌, ◌≤◌, nat_le, length, sym, subst, arith}
use Rattle.std.proofs.lemmas.Bool.{le-leb, leb-true, cond-true}
use Rattle.undo_journal.specs.Journal.{from_number}
use Rattle.func_model.specs.declared.walk.Walk.{Walk}
use Rattle.func_model.specs.Contents.{output_in}
use Rattle.func_model.specs.Walk.{bytes_sent, bytes_before}
use Rattle.entry_speed.proofs.trace.Trace.has_room.Goals as goal

bytes_within : {D : Type 0} (walk : Walk D) (n limit : ℕ) → n ≤ walk.position → length (output_in walk.contents) ≤ limit → bytes_before walk n ≤ limit
unfolding bytes_before
bytes_within walk n limit below room =
    let back = length (output_in walk.contents) - bytes_sent (from_number n walk.journal.steps) in
    subst (λ (k : ℕ). k ≤ limit) (sym (cond-true (nat_le n walk.position) back _ (le-leb n walk.position below))) (omega (arith, room))

pub returns : goal.returns
returns g c = record {
  room = λ is.
      let now = c.args.self.now in
      let within : length c.output.result.now ≤ now.side.limit = omega (arith, leb-true (length c.output.result.now) now.limit is, now.limit_is) in
      bytes_within now.side now.position now.side.limit (omega (arith, now.position_is))
      (subst (λ (xs : List ℕ). length xs ≤ now.side.limit) c.output.ensures.output within);
}
EOF
cat >"$work/crates/entry_speed/proofs/trace/make/Invariants.antt" <<EOF
use Rattle.std.proofs.Common.{◌≡◌, ◌+◌}
use Rattle.entry_speed.proofs.trace.make.Given as goal

abbrev pub invariant-loop-made : goal.invariant-loop-made
invariant-loop-made g l =
    (l.side.position ≡ l.fn.side.position + l.made) × (l.side.epoch ≡ l.fn.side.epoch)
    × (l.side.journal.room ≡ l.fn.side.journal.room) × (l.side.limit ≡ l.fn.side.limit)
EOF
cat >"$work/crates/entry_speed/src/trace.rt" <<EOF
ghost use Rattle.std.specs.Prelude.{◌≡◌, ◌≤◌, ◌<◌, ◌+◌, ◌^◌, true, map};
ghost use Rattle.device_bus.specs.Bus.{device_order};
ghost use Rattle.mono_model.specs.Setup.{is_setup};
ghost use Rattle.func_model.specs.Walk.{bytes_before};

use device_bus::Device;
use fsim_base::NoMemory;
use func_model::FuncSide;
use mono_model::Setup;
use rollback_cmds::Order;
use std::alloc::Global;
use trace_entry::Entry;

/// How many entries are made for a Commit.
const TOGETHER: u64 = 64;

/// A functional side whose entries are made one over the other, and committed.
#[derive(Drop)]
pub struct Trace<D: Device> {
    side: FuncSide<D>,
    entry: Entry,
    position: u64,
    epoch: u64,
    room: u64,
    limit: u32,
    ghost position_is: { side.position ≡ position },
    ghost epoch_is: { side.epoch ≡ epoch },
    ghost room_is: { side.journal.room ≡ room },
    ghost limit_is: { side.limit ≡ limit },
}

/// Makes so many entries, or fewer where the side is at rest before; how many.
fn make<D: Device>(side: &mut FuncSide<D>, entry: &mut Entry, count: u64) -> u64
    requires few { count ≤ 64 }
    requires position { side.old.position + 64 < 2 ^ 62 }
    requires epoch { side.old.epoch < 2 ^ 62 }
    ensures made { side.new.position ≡ side.old.position + result }
    ensures within { result ≤ count }
    ensures epoch { side.new.epoch ≡ side.old.epoch }
    ensures room { side.new.journal.room ≡ side.old.journal.room }
    ensures limit { side.new.limit ≡ side.old.limit }
{
    for made in 0..count {
        if !side.produce_into(entry) {
            return made;
        }
    }
    count
}

impl<D: Device> Trace<D> {
    pub fn new(alloc: Global, setup: &Setup, devices: Vec<D>) -> Result<Trace<D>, NoMemory>
        requires sound { is_setup setup.now ≡ true }
        requires order { map D.kind devices.items ≡ device_order }
    {
        let side = FuncSide::new(alloc, setup, devices)?;
        let window = u64::from(setup.params.core_window);
        Ok(Trace {
            side,
            entry: Entry::BLANK,
            position: 0,
            epoch: 0,
            room: window + u64::from(setup.ring) + 2,
            limit: setup.output,
        })
    }

    /// The number of the entry made last.
    pub fn last(&self) -> u64 {
        self.entry.number
    }

    fn has_room(&self) -> bool
        ensures room { result ≡ true → bytes_before self.now.side self.now.position ≤ self.now.side.limit }
    {
        self.side.output().len() <= self.limit as usize
    }

    /// Makes 64 entries, and commits them; false where that can't be.
    pub fn turn(&mut self) -> bool {
        if self.position >= 1 << 61 || self.epoch >= 1 << 61 {
            return false;
        }
        let Trace { side, entry, .. } = self;
        let made = make(side, entry, TOGETHER);
        self.position += made;
        if made < TOGETHER {
            return false;
        }
        let n = self.position;
        let done = self.side.committed();
        if self.side.stopped() || done > n || n - done > self.room {
            return false;
        }
        if !self.has_room() {
            return false;
        }
        self.side.obey(Order::Commit { n });
        true
    }
}
EOF
cat >"$work/crates/entry_speed/src/main.rt" <<EOF
//! Times the making of entries.
#![tactic(auto)]

ghost use Rattle.std.specs.Prelude.{◌≡◌, true, map};
ghost use Rattle.device_bus.specs.Bus.{device_order};
ghost use Rattle.mono_model.specs.Setup.{is_setup};

mod trace;

use anyhow::{Context, anyhow};
use branch_predictor::PredKind;
use device_bus::{AnyDevice, Console, Device, Finisher, Timer, in_order};
use elf_image::{Image, Segment, Segments};
use fsim_base::Bytes;
use mono_model::{Params, Setup};
use std::alloc::Global;
use std::time::Instant;
use trace::Trace;

const TURNS: u64 = ${millions}_000_000 / 64;

fn params() -> Params {
    Params {
        version: 1, ram_base: 0x8000_0000, ram_size: 16_777_216,
        core_fetch: 1, core_commit: 1, core_front: 1, core_window: 64, core_stations: 256,
        alu_count: 1, alu_latency: 1, mul_count: 1, mul_latency: 1,
        div_count: 1, div_latency: 1, mem_count: 1, mem_latency: 1,
        predictor_kind: PredKind::Static, predictor_counters: 1024, predictor_history: 8, predictor_targets: 0,
        icache_line: 64, icache_sets: 64, icache_ways: 0, icache_miss: 20,
        dcache_line: 64, dcache_sets: 64, dcache_ways: 0, dcache_miss: 20, dcache_back: false,
        l2_line: 64, l2_sets: 512, l2_ways: 0, l2_hit: 10, l2_miss: 100,
    }
}

fn devices(alloc: Global) -> anyhow::Result<Vec<AnyDevice>> {
    let Ok(console) = Console::new(alloc) else {
        return Err(anyhow!("no memory"));
    };
    let mut devices = Vec::new(alloc);
    devices.push(AnyDevice::Console(console))?;
    devices.push(AnyDevice::Timer(Timer::new()))?;
    devices.push(AnyDevice::Finisher(Finisher::new()))?;
    Ok(devices)
}

/// Takes the entries of a run; how many turns were made.
fn turns<D: Device>(trace: &mut Trace<D>) -> u64 {
    for turn in 0..TURNS {
        if !trace.turn() {
            return turn;
        }
    }
    TURNS
}

/// Times the entries of a run.
fn follow<D: Device>(rt: &HostRuntime, name: &str, setup: &Setup, devices: Vec<D>) -> anyhow::Result<()>
    requires sound { is_setup setup.now ≡ true }
    requires order { map D.kind devices.items ≡ device_order }
{
    let Ok(mut trace) = Trace::new(rt.alloc(), setup, devices) else {
        return Err(anyhow!("no memory"));
    };
    let start = Instant::now(rt).context("the clock")?;
    let made = turns(&mut trace);
    let time = start.elapsed(rt).context("the clock")?.as_millis();
    println!(rt; "{name}: {made} times 64 entries in {time} ms, the last one {}", trace.last())?;
    Ok(())
}

fn measure(rt: &HostRuntime, name: &str, words: &[u32]) -> anyhow::Result<()> {
    let alloc = rt.alloc();
    let mut bytes = Vec::new(alloc);
    for word in words {
        bytes.extend_from_slice(&word.to_le_bytes())?;
    }
    let segment = Segment {
        index: 0,
        addr: 0x8000_0000,
        size: u32::try_from(bytes.len()).unwrap_or(0),
        exec: true,
        bytes: Bytes::new(bytes),
    };
    let setup = Setup {
        image: Image { entry: 0x8000_0000, segments: Segments::new(vec![in alloc; segment]?) },
        params: params(),
        input: Bytes::new(Vec::new(alloc)),
        cycles: 10_000_000,
        output: 1024,
        ring: 64,
    };
    let devices = devices(alloc)?;
    if !setup.sound() || !in_order(&devices) {
        return Err(anyhow!("the setup isn't sound"));
    }
    follow(rt, name, &setup, devices)
}

fn main(rt: HostRuntime) -> anyhow::Result<()> {
    measure(&rt, "arithmetic", &[0x0012_8293, 0x0053_4333, 0x0063_83b3, 0xff5f_f06f])?;
    measure(&rt, "memory", &[0x8000_12b7, 0x0002_a303, 0x0013_0313, 0x0062_a023, 0xff5f_f06f])?;
    measure(&rt, "division", &[0x0012_8293, 0x0252_8333, 0x0253_53b3, 0xff5f_f06f])
}
EOF
cd "$work/crates/entry_speed"
rt run 2>"$work/log" || { tail -40 "$work/log"; exit 1; }
