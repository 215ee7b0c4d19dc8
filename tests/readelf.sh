#!/usr/bin/env bash
# Has readelf of binutils and of LLVM read linked files, without a complaint: those of the worked case of two libraries and
# a program, and those of objects that clang makes.
#
#     tests/readelf.sh PROGRAM
#
# Since no compiler at hand sets the two flag bits of the pure-capability profile, this script sets them in the objects'
# headers. Where a tool is missing, it says so and passes over what needs it.
set -eu
program=$(realpath "$1")
tests=$(realpath "$(dirname "$0")")
folder=$(mktemp -d)
trap 'rm -rf "$folder"' EXIT
cd "$folder"

# The worked case.
mkdir -p case/lib
PYTHONPATH=$tests PYTHONDONTWRITEBYTECODE=1 python3 - case <<'CODE'
import sys
from pathlib import Path
from users_case import OBJECTS
for name, contents in OBJECTS.items():
    if contents:
        Path(sys.argv[1], name).write_bytes(contents)
CODE
(
    cd case
    "$program" link -o lib/libh.so --shared libh.so h.o
    "$program" link -o lib/libp.so --shared libp.so p.o
    "$program" link -o app a.o b.o lib/libh.so
)
linked=(case/lib/libh.so case/lib/libp.so case/app)

# What a compiler makes.
if clang --print-targets 2> /dev/null | grep -q riscv64; then
    cat > first.c <<'CODE'
int counter = 3;
int table[1000];
int tentative;
const char *const greetings[] = {"hello", "and again"};
long outer(long x) { return x * 3; }
CODE
    cat > second.c <<'CODE'
extern int counter;
extern long outer(long);
long (*entry)(long) = outer;
int *place = &counter;
long _start(long x) { return x * 5; }
CODE
    for name in first second; do
        clang --target=riscv64-linux-gnu -march=rv64g -mno-relax -fcommon -O1 -c "$name.c" -o "$name.o"
        python3 "$tests/../examples/pure_capability.py" "$name.o"
    done
    "$program" link -o library.so --shared library.so first.o
    "$program" link -o both.so --shared both.so first.o second.o
    "$program" link -o program second.o library.so
    "$program" load -o image -L . program
    "$program" show image > report
    linked+=(library.so both.so program)
else
    echo "skipped: no clang for riscv64"
fi

for reader in readelf llvm-readelf; do
    if ! command -v "$reader" > /dev/null; then
        echo "skipped: no $reader"
        continue
    fi
    for file in "${linked[@]}"; do
        "$reader" -a "$file" > out 2> err
        if [ -s err ] || grep -qi "warning\|error\|corrupt\|invalid" out; then
            echo "$reader complains of $file:"
            cat err
            grep -i "warning\|error\|corrupt\|invalid" out
            exit 1
        fi
    done
    echo "$reader reads ${#linked[@]} linked files"
done
