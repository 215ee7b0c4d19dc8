#!/usr/bin/env bash
# Reads shared objects as the linkers of a distribution write them: each must be accepted.
#
# A C compiler for 64-bit RISC-V (clang) and a linker (ld.lld, or ld.bfd of binutils) make them; since no linker at hand
# sets the two flag bits of the pure-capability profile, this script sets them in the header. Where the tools are
# missing, it says so and passes.
set -eu
cd "$(dirname "$0")/.."
mark=$PWD/examples/pure_capability.py
if ! clang --print-targets 2> /dev/null | grep -q riscv64; then
    echo "skipped: no clang for riscv64"
    exit 0
fi
. tests/beside.sh
beside reader "cap_base cap_elf" cap_base cap_elf

cat > "$folder/first.c" <<'CODE'
int counter = 3;
int table[1000];
const char *const greetings[] = {"hello", "and again"};
static long hidden(long x) { return x * 3; }
__attribute__((weak)) long twice(long x) { return x + x; }
__attribute__((visibility("hidden"))) long inner(long x) { return hidden(x) + counter; }
long outer(long x) { return inner(x) + twice(x) + table[x % 1000]; }
CODE
cat > "$folder/second.c" <<'CODE'
extern int counter;
extern long outer(long), missing(long) __attribute__((weak));
long (*entry)(long) = outer;
int *place = &counter;
long caller(long x) { return missing ? missing(x) : entry(x) + *place; }
CODE

cd "$folder"
compile() { clang --target=riscv64-linux-gnu -march=rv64g -mno-relax -fPIC -O1 -c "$1.c" -o "$1.o"; }
compile first
compile second
made=()
link() {
    local linker=$1 name=$2
    shift 2
    "$linker" "$@" -o "$name" 2> link.log || { echo "skipped: $linker $*"; return; }
    python3 "$mark" "$name"
    made+=("$PWD/$name")
}
for linker in ld.lld riscv64-linux-gnu-ld; do
    if ! command -v "$linker" > /dev/null; then
        echo "skipped: no $linker"
        continue
    fi
    link "$linker" "$linker-first.so" -shared -soname first.so --hash-style=sysv first.o
    link "$linker" "$linker-both.so" -shared -soname both.so --hash-style=both -z relro -z now first.o
    link "$linker" "$linker-plain.so" -shared --hash-style=sysv -z norelro first.o second.o
    link "$linker" "$linker-second.so" -shared --hash-style=sysv -Bsymbolic second.o "$linker-first.so"
    link "$linker" "$linker-pie" --hash-style=sysv -pie -z max-page-size=65536 first.o second.o
done
if [ ${#made[@]} = 0 ]; then
    echo "skipped: no linker"
    exit 0
fi
cd - > /dev/null

cat > "$folder/crates/reader/src/main.rt" <<'CODE'
#![tactic(auto)]

use cap_base::{Refusal, check_text};
use cap_elf::read_dyn;
use std::alloc::Global;
use std::env;
use std::fs;
use std::io;
use std::process::ExitCode;
use std::rt::{Env, Files};

fn told<R: Print>(rt: &R, name: &str, refusal: Refusal) -> io::Result<()> {
    match refusal {
        Refusal::Malformed { check, at, .. } => println!(rt; "refused: {name}: malformed {} at {at:x}", check_text(check)),
        Refusal::Unsupported { check, at, .. } => println!(rt; "refused: {name}: unsupported {} at {at:x}", check_text(check)),
        _ => println!(rt; "refused: {name}"),
    }
}

fn read<R: Print + Alloc<A = Global> + Env + Files>(rt: &R) -> io::Result<u8> {
    let mut refused = 0;
    for name in env::args(rt)?.skip(1) {
        let bytes = fs::read(rt, name.as_str())?;
        match read_dyn(rt.alloc(), 0, &bytes) {
            Ok(file) => {
                let symbols = file.symbols().len();
                let relocations = file.relocs().len();
                println!(rt; "accepted: {name}: {symbols} symbols, {relocations} relocations")?;
            }
            Err(refusal) => {
                told(rt, name.as_str(), refusal)?;
                refused = 1;
            }
        }
    }
    Ok(refused)
}

fn main(rt: HostRuntime) -> io::Result<ExitCode> {
    Ok(ExitCode::from(read(&rt)?))
}
CODE
cd "$folder/crates/reader"
rt run -- > "$folder/log" 2>&1 || { tail -n 20 "$folder/log"; exit 1; }
out/reader "${made[@]}" | sed "s#$folder/##"
exit "${PIPESTATUS[0]}"
