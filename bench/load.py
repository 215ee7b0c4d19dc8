#!/usr/bin/env python3
"""Times `purecap load` beside the C library's dlopen.

    bench/load.py PROGRAM [--runs N] [--most POWER] [--hash sysv|gnu|both] [--first-found]

An object with 2^12 to 2^18 capability relocations, each to another symbol of 1, 16, 64 or 255 libraries, which have as
many together, all strong or all weak. (A session takes 256 objects.) Beside it, where there is a C compiler, a C
program that opens (RTLD_NOW) a shared object of this machine with as many pointers to as many symbols; the two take
turns. `load` is the whole run, dlopen the time within that program.

For each: the least times of N runs, time and peak memory a relocation, and the ratio to dlopen; then how far the time a
relocation is from flat, over the numbers of relocations and over those of libraries."""
import argparse
import shutil
import subprocess
import sys
import tempfile
from pathlib import Path

sys.path.insert(0, str(Path(__file__).resolve().parent.parent / "examples"))
from measure import Command, Spent, best, run  # noqa: E402
from shared_object import GLOBAL, NOTYPE, WEAK, Relocation, SharedObject, Symbol, written  # noqa: E402

LIBRARIES = [1, 16, 64, 255]
OPENER = r"""
#include <dlfcn.h>
#include <stdio.h>
#include <time.h>
int main(int argc, char **argv) {
    struct timespec from, to;
    clock_gettime(CLOCK_MONOTONIC, &from);
    void *object = dlopen(argv[1], RTLD_NOW | RTLD_GLOBAL);
    clock_gettime(CLOCK_MONOTONIC, &to);
    if (!object) { fprintf(stderr, "%s\n", dlerror()); return 1; }
    printf("%.9f\n", (to.tv_sec - from.tv_sec) + (to.tv_nsec - from.tv_nsec) * 1e-9);
    return 0;
}
"""


def names_of(library: int, count: int) -> list[str]:
    return [f"library_{library:02d}_symbol_{i:06d}" for i in range(count)]


def library_of(names: list[str], soname: str, binding: int = GLOBAL, gnu: bool = False) -> SharedObject:
    """A library with a word of data for each name."""
    return SharedObject(data=bytes(8 * len(names)), soname=soname, gnu=gnu,
                        symbols=[Symbol(name, ("data", 8 * i), 8, binding=binding) for i, name in enumerate(names)])


def user_of(names: list[str], needed: list[str], gnu: bool = False) -> SharedObject:
    """An object with a capability to what each name means."""
    return SharedObject(data=bytes(16 * len(names)), symbols=[Symbol(name, kind=NOTYPE) for name in names],
                        relocations=[Relocation(("data", 16 * i), i + 1) for i in range(len(names))], needed=needed,
                        gnu=gnu)


def make(folder: Path, names: list[list[str]], binding: int, gnu: bool) -> int:
    """`m`, with a capability to each of the names, and a library for each list of them. Their bytes."""
    files = {f"lib{number:02d}.so": written(library_of(of_one, f"lib{number:02d}.so", binding, gnu))
             for number, of_one in enumerate(names)}
    files["m"] = written(user_of([name for of_one in names for name in of_one], list(files), gnu))
    for name, contents in files.items():
        folder.joinpath(name).write_bytes(contents)
    return sum(map(len, files.values()))


def make_for_dlopen(folder: Path, names: list[list[str]], binding: int, style: str) -> Command | None:
    """The command that opens an object of this machine with a pointer to each of the names."""
    compiler = shutil.which("cc") or shutil.which("gcc") or shutil.which("clang")
    if compiler is None:
        return None

    def build(target: str, source: str, *more: str) -> None:
        folder.joinpath(f"{target}.s").write_text(source)
        subprocess.run([compiler, "-shared", "-nostdlib", f"-Wl,--hash-style={style}", "-o", target, f"{target}.s",
                        *more], cwd=folder, check=True)

    word = ".weak" if binding == WEAK else ".globl"
    targets = [f"./c{number:02d}.so" for number in range(len(names))]
    for target, of_one in zip(targets, names):
        build(target, ".data\n" + "".join(
            f"{word} {name}\n.type {name}, STT_OBJECT\n.size {name}, 8\n{name}: .quad 1\n" for name in of_one))
    build("./pointers.so", ".data\n" + "".join(f".quad {name}\n" for of_one in names for name in of_one), *targets)
    folder.joinpath("opener.c").write_text(OPENER)
    subprocess.run([compiler, "-O2", "-o", "opener", "opener.c", "-ldl"], cwd=folder, check=True)
    return ["./opener", "./pointers.so"]


def main() -> None:
    options = argparse.ArgumentParser(description=__doc__, formatter_class=argparse.RawDescriptionHelpFormatter)
    options.add_argument("program")
    options.add_argument("--runs", type=int, default=5)
    options.add_argument("--most", type=int, default=18, help="the greatest number of relocations, as a power of two")
    options.add_argument("--hash", choices=["sysv", "gnu", "both"], default="sysv", help="the table of names")
    options.add_argument("--first-found", action="store_true", help="bind to the first definition, weak or not")
    given = options.parse_args()
    load = [str(Path(given.program).resolve()), "load", "-o", "image", "m", *["--first-found"] * given.first_found]
    print("| libraries | relocations | definitions | hash | files, MB | load, s | user, s | system, s "
          "| a relocation, ns | peak, bytes a relocation | dlopen, s | load / dlopen |")
    print("|---|---|---|---|---|---|---|---|---|---|---|---|")
    flat: dict[str, list[float]] = {}
    for style in ("sysv", "gnu") if given.hash == "both" else (given.hash,):
        for definitions, binding in ("strong", GLOBAL), ("weak", WEAK):
            for libraries in LIBRARIES:
                for power in range(12, given.most + 1, 2):
                    names = [names_of(library, (1 << power) // libraries) for library in range(libraries)]
                    relocations = sum(map(len, names))
                    with tempfile.TemporaryDirectory() as name:
                        folder = Path(name)
                        size = make(folder, names, binding, style == "gnu")
                        opener = make_for_dlopen(folder, names, binding, style)
                        loads: list[Spent] = []
                        opens: list[float] = []
                        for _ in range(given.runs):
                            loads.append(run(load, folder))
                            if opener:
                                run(opener, folder, folder / "opened")
                                opens.append(float(folder.joinpath("opened").read_text()))
                    spent, each = best(loads), best(loads).wall / relocations * 1e9
                    beside = f"{min(opens):.4f} | {spent.wall / min(opens):.1f}" if opens else "no C compiler | -"
                    print(f"| {libraries} | 2^{power} | {definitions} | {style} | {size / 1e6:.1f} | {spent.wall:.3f} "
                          f"| {spent.user:.3f} | {spent.system:.3f} | {each:.0f} | {spent.peak / relocations:.0f} "
                          f"| {beside} |", flush=True)
                    flat.setdefault(f"{libraries} libraries, {definitions}, {style}", []).append(each)
                    flat.setdefault(f"2^{power} relocations, {definitions}, {style}", []).append(each)
    print("\nThe greatest time a relocation to the least:")
    for what, times in flat.items():
        print(f"- {what}: {max(times) / min(times):.2f}")


if __name__ == "__main__":
    main()
