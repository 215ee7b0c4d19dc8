#!/usr/bin/env bash
# Times reading shared objects with 2^12 to 2^18 symbols, and adopting their hash chains, beside `readelf -D -s`.
#
# The program below stands in a copy of the crates, so that the gate has nothing to do with it.
set -eu
cd "$(dirname "$0")/.."
bench=$PWD/bench
. tests/beside.sh
beside bench "cap_base cap_elf cap_scope" cap_base cap_elf cap_chain cap_scope

cat > "$folder/crates/bench/src/main.rt" <<'CODE'
#![tactic(auto)]

use cap_elf::read_dyn;
use cap_scope::Object;
use std::alloc::Global;
use std::env;
use std::fs;
use std::io;
use std::process::Abort;
use std::rt::{Clock, Env, Files};
use std::time::Instant;

fn time<R: Abort + Alloc<A = Global> + Print + Clock>(rt: &R, bytes: &[u8]) -> io::Result<()> {
    let start = Instant::now(rt)?;
    let file = read_dyn(rt.alloc(), 0, bytes);
    let read = start.elapsed(rt)?.as_micros();
    let file = file.expect(rt, "the object is sound");
    let symbols = file.symbols().len();
    let start = Instant::now(rt)?;
    let object = Object::new(rt.alloc(), file);
    let adopted = start.elapsed(rt)?.as_micros();
    assert!(rt; object.is_ok());
    println!(rt; "{symbols} {read} {adopted}")
}

fn time_file<R: Abort + Alloc<A = Global> + Print + Clock + Env + Files>(rt: &R) -> io::Result<()> {
    for name in env::args(rt)?.skip(1) {
        let bytes = fs::read(rt, name.as_str())?;
        for _ in 0..5u32 {
            time(rt, &bytes)?;
        }
    }
    Ok(())
}

fn main(rt: HostRuntime) -> io::Result<()> {
    time_file(&rt)
}
CODE
cd "$folder/crates/bench"
for power in 12 14 16 18; do
    python3 "$bench/make_object.py" $((1 << power)) "$folder/2^$power.so"
done
rt run -- "$folder/2^12.so" > "$folder/log" 2>&1 || { tail -n 20 "$folder/log"; exit 1; }
echo "| symbols | read_dyn, us | a symbol, ns | adopting, us | a symbol, ns | readelf -D -s, us |"
echo "|---|---|---|---|---|---|"
for power in 12 14 16 18; do
    start=$(date +%s%N)
    readelf -D -s "$folder/2^$power.so" > /dev/null 2>&1 || true
    spent=$((($(date +%s%N) - start) / 1000))
    out/bench "$folder/2^$power.so" | sort -n -k2 | head -n 1 | while read -r symbols read adopted; do
        echo "| 2^$power | $read | $((read * 1000 / symbols)) | $adopted | $((adopted * 1000 / symbols)) | $spent |"
    done
done
