#!/usr/bin/env bash
# Times tagged memory: 2^20 capabilities stored over 2^26 bytes, scanned, walked by owner, and cleared by stores of bytes.
#
# The program below stands in a copy of the crates, so that the gate has nothing to do with it.
set -eu
cd "$(dirname "$0")/.."
. tests/beside.sh
beside bench "cap_base cap_conc cap_own cap_mem" cap_base cap_conc cap_own cap_mem

cat > "$folder/crates/bench/src/main.rt" <<'CODE'
#![tactic(auto)]

use cap_mem::Memory;
use cap_own::{Derived, Perms, Root, Seg, Space};
use std::alloc::Global;
use std::io;
use std::process::Abort;
use std::rt::Clock;
use std::time::Instant;

const BASE: u64 = 0x4000_0000;

const LENGTH: u64 = 1 << 26;

const STORES: u64 = 1 << 20;

fn narrowed<'r>(rt: &impl Abort, root: &'r Root, at: u64) -> Derived<'r> {
    let base = root.base();
    let len = root.len();
    assert!(rt; base <= at && 16 <= len && at - base <= len - 16);
    let part = root.data(base, len, Perms::DATA);
    part.narrow(at, 16, Perms::READ).expect(rt, "16 bytes are exact")
}

fn store(rt: &impl Abort, memory: &mut Memory, root: &Root, at: u64, note: u32) {
    let cap = narrowed(rt, root, at);
    assert!(rt; cap.owner() < 256);
    let base = memory.base();
    let len = memory.len();
    assert!(rt; at % 16 == 0 && base <= at && 16 <= len && at - base <= len - 16);
    memory.store_cap(at, cap, note);
}

fn stores(rt: &impl Abort, memory: &mut Memory, root: &Root) {
    for k in 0..STORES {
        store(rt, memory, root, BASE + 64 * k, k as u32);
    }
}

fn count(memory: &Memory) -> u64 {
    let mut from = 0u64;
    for found in 0..=STORES {
        match memory.tagged(from) {
            Some(granule) => from = granule.saturating_add(1),
            None => return found,
        }
    }
    u64::MAX
}

fn walk(rt: &impl Abort, memory: &Memory) -> u64 {
    let Some(first) = memory.first_of(0) else {
        return 0;
    };
    let base = memory.base();
    let len = memory.len();
    let mut at = first;
    for found in 0..STORES {
        assert!(rt; at % 16 == 0 && base <= at && 16 <= len && at - base <= len - 16);
        assert!(rt; memory.word_at(at).1);
        match memory.next_of(at) {
            Some(granule) => at = granule,
            None => return found + 1,
        }
    }
    u64::MAX
}

fn clear(rt: &impl Abort, memory: &mut Memory) {
    let zeros = [0u8; 4096];
    for page in 0..LENGTH / 4096 {
        let at = BASE + 4096 * page;
        let base = memory.base();
        let len = memory.len();
        assert!(rt; base <= at && 4096 <= len && at - base <= len - 4096);
        memory.store_bytes(at, &zeros);
    }
}

fn mapped(rt: &(impl Abort + Alloc<A = Global>), root: &Root) -> Memory {
    assert!(rt; root.base() % 4096 == 0);
    assert!(rt; root.len() % 4096 == 0);
    Memory::map(rt.alloc(), root).expect(rt, "there is memory")
}

fn round<R: Abort + Print + Clock>(rt: &R, memory: &mut Memory, root: &Root) -> io::Result<()> {
    let start = Instant::now(rt)?;
    let found = count(memory);
    println!(rt; "scan, {found} tags: {} us", start.elapsed(rt)?.as_micros())?;
    let start = Instant::now(rt)?;
    stores(rt, memory, root);
    println!(rt; "store 2^20 capabilities: {} us", start.elapsed(rt)?.as_micros())?;
    let start = Instant::now(rt)?;
    let found = count(memory);
    println!(rt; "scan, {found} tags: {} us", start.elapsed(rt)?.as_micros())?;
    let start = Instant::now(rt)?;
    let found = walk(rt, memory);
    println!(rt; "walk the list of an owner, {found} granules: {} us", start.elapsed(rt)?.as_micros())?;
    let start = Instant::now(rt)?;
    clear(rt, memory);
    println!(rt; "store 2^26 bytes, clearing the tags: {} us", start.elapsed(rt)?.as_micros())?;
    let start = Instant::now(rt)?;
    clear(rt, memory);
    println!(rt; "store 2^26 bytes without tags: {} us", start.elapsed(rt)?.as_micros())
}

fn main(rt: HostRuntime) -> io::Result<()> {
    let mut space = Space::new(BASE, BASE + LENGTH);
    assert!(rt; 4096u64.is_power_of_two());
    let (pad, body) = space.carve(4096, LENGTH).expect(&rt, "there is room");
    let root = Root::new(body, 0);
    let start = Instant::now(&rt).expect(&rt, "a clock");
    let mut memory = mapped(&rt, &root);
    let first = round(&rt, &mut memory, &root);
    let second = round(&rt, &mut memory, &root);
    space.give_back(pad.join(root.into_span()));
    space.end();
    first?;
    second
}
CODE
cd "$folder/crates/bench"
rt run
