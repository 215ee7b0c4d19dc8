#!/usr/bin/env python3
"""Times `purecap link` beside the linkers of a distribution: lld, mold and bfd, those that are there.

    bench/link.py PROGRAM [--runs N] [--least POWER] [--most POWER] [--only KIND] [--archive FILE]... [--symtab]

clang's assembler makes 64 objects, and 256, for 64-bit RISC-V, with 2^12 to 2^18 relocations in all, of three kinds:

  data     words with the address of a word that a fixed random order picks among all objects
  hidden   the same with hidden names
  code     functions with a call of a function and a load of one's address from a table, both picked at random

and there are real ones, where a C library for 64-bit RISC-V is installed: the 255 largest members that can be converted
(tools/convert.py), and an object with what they miss.

The others get these objects; `link` gets the same bytes, but capabilities for addresses, loads from its table for those
from the GOT, and its calls; of the real ones, what the converter makes of them. The others too leave out the table of
symbols that a program doesn't need (-s), unless --symtab is given. lld and mold run with as many threads as they choose
and with one. All take turns.

For each: the least times of N runs, peak memory, the size of the output, and how much of its wall time `link` took."""
import argparse
import os
import random
import re
import shutil
import subprocess
import sys
import tempfile
from collections.abc import Iterator
from pathlib import Path

HERE = Path(__file__).resolve().parent
sys.path[:0] = [str(HERE.parent / "tools")]
from convert import Refused, convert  # noqa: E402
from elf import (ABSOLUTE, CALL, CALL_PLAIN, CALL_PLT, CAPABILITY, FLAGS_AT, GLOBAL, GOT_HIGH, LOCAL, PURE_CAPABILITY,
                 RELA, TABLE_HIGH, UNDEFINED, WORD_64, Broken, Symbol, members_of, read_header, read_relocatable,
                 read_sections, u32)  # noqa: E402
from measure import Command, in_turns  # noqa: E402

SIZES = [(64, 12), (64, 14), (64, 16), (64, 18), (256, 16), (256, 18)]
NEW_KINDS = {WORD_64: CAPABILITY, GOT_HIGH: TABLE_HIGH, CALL_PLAIN: CALL, CALL_PLT: CALL}
ARCHIVES = ["/usr/riscv64-linux-gnu/lib/libc.a",
            "/usr/lib/picolibc/riscv64-unknown-elf/lib/release/rv64imafdc/lp64d/libc.a"]
MEMBERS = 255


# ---- Objects

def word_lines(name: str, target: str, hidden: bool) -> list[str]:
    return [f".globl {name}", *[f".hidden {name}"] * hidden, f".type {name}, @object", f".size {name}, 16",
            ".balign 16", f"{name}:", f".quad {target}, 0"]


def function_lines(name: str, called: str, loaded: str) -> list[str]:
    return [f".globl {name}", f".type {name}, @function", f"{name}:", f"call {called}@plt", f"la a0, {loaded}", "ret",
            f".size {name}, .-{name}"]


def sources(kind: str, objects: int, relocations: int) -> Iterator[str]:
    """The assembly of each object. A function has two relocations, a word one."""
    count = relocations // objects // (2 if kind == "code" else 1)
    names = [[f"object_{number:03d}_name_{i:06d}" for i in range(count)] for number in range(objects)]
    order = random.Random(0)
    targets = [name for of_one in names for name in of_one]
    order.shuffle(targets)
    others = list(targets)
    order.shuffle(others)
    for of_one in names:
        lines = [".option pic", ".text" if kind == "code" else ".data"]
        for name in of_one:
            if kind == "code":
                lines += function_lines(name, targets.pop(), others.pop())
            else:
                lines += word_lines(name, targets.pop(), kind == "hidden")
        yield "\n".join(lines) + "\n"


def assembled(source: str, folder: Path) -> bytes:
    folder.joinpath("source.s").write_text(source)
    subprocess.run(["clang", "--target=riscv64-linux-gnu", "-march=rv64g", "-mno-relax", "-c", "source.s", "-o",
                    "made.o"], cwd=folder, check=True)
    return folder.joinpath("made.o").read_bytes()


def with_capabilities(contents: bytes) -> bytes:
    """The same object in the profile: other flags, and other kinds of relocations."""
    header, changed = read_header(contents), bytearray(contents)
    changed[FLAGS_AT:FLAGS_AT + 4] = u32(header.flags | PURE_CAPABILITY)
    for section in read_sections(contents, header):
        if section.type == RELA:
            for at in range(section.at + 8, section.at + section.size, 24):
                kind = int.from_bytes(changed[at:at + 4], "little")
                changed[at:at + 4] = u32(NEW_KINDS.get(kind, kind))
    return bytes(changed)


def globals_of(contents: bytes) -> list[Symbol]:
    return [symbol for symbol in read_relocatable(contents).symbols if symbol.binding != LOCAL]


def is_definition(symbol: Symbol) -> bool:
    return symbol.binding == GLOBAL and (symbol.is_placed or symbol.section == ABSOLUTE)


def real_objects(archive: Path, folder: Path) -> list[tuple[bytes, bytes]]:
    """The largest members that can be converted and define no name again, each as it is and converted; and one with
    what they miss."""
    made: list[tuple[bytes, bytes]] = []
    defined: set[str] = set()
    for _, contents in sorted(members_of(archive.read_bytes()), key=lambda member: len(member[1]), reverse=True):
        if len(made) == MEMBERS:
            break
        try:
            pair = contents, convert(contents).contents
        except (Broken, Refused):
            continue
        names = {symbol.name for symbol in globals_of(pair[1]) if is_definition(symbol)}
        if not names & defined:
            defined |= names
            made.append(pair)
    symbols = [symbol for pair in made for symbol in globals_of(pair[0])]
    missing = {s.name for s in symbols if s.section == UNDEFINED} - {s.name for s in symbols if s.section != UNDEFINED}
    rest = assembled(".bss\n" + "".join(
        f".globl {name}\n.type {name}, @object\n.size {name}, 4096\n.balign 16\n{name}: .zero 4096\n"
        for name in sorted(missing)), folder)
    return [*made, (rest, with_capabilities(rest))]


# ---- Linkers

def version_of(linker: str) -> str:
    told = subprocess.run([linker, "--version"], capture_output=True, text=True).stdout
    return re.search(r"\d+(\.\d+)?", told.replace("GNU", "")).group()


def others(options: list[str], symtab: bool) -> dict[str, Command]:
    """The other linkers by name and version, each with its options; each version of lld once."""
    found = {os.path.realpath(path): path for folder in os.get_exec_path() for path in Path(folder).glob("ld.lld*")}
    options = [*options, "--hash-style=sysv", *["-s"] * (not symtab)]
    commands: dict[str, Command] = {}
    for path in sorted(found.values()):
        name = f"lld {version_of(str(path))}"
        commands |= {name: [path, *options], f"{name}, one thread": [path, "--threads=1", *options]}
    if shutil.which("mold"):
        name = f"mold {version_of('mold')}"
        commands |= {name: ["mold", *options], f"{name}, one thread": ["mold", "--thread-count=1", *options]}
    if shutil.which("riscv64-linux-gnu-ld.bfd"):
        name = f"bfd {version_of('riscv64-linux-gnu-ld.bfd')}"
        commands[name] = ["riscv64-linux-gnu-ld.bfd", *options]
    return commands


def measure(what: str, pairs: list[tuple[bytes, bytes]], mine: Command, peers: dict[str, Command], runs: int,
            folder: Path) -> None:
    for number, (plain, capabilities) in enumerate(pairs):
        folder.joinpath(f"{number:03d}.o").write_bytes(plain)
        folder.joinpath(f"c{number:03d}.o").write_bytes(capabilities)
    files = [f"{number:03d}.o" for number in range(len(pairs))]
    commands = {"purecap": [*mine, "-o", "out.purecap", *(f"c{file}" for file in files)]}
    commands |= {name: [*command, "-o", f"out.{name}", *files] for name, command in peers.items()}
    taken = in_turns(commands, runs, folder)
    for name, spent in taken.items():
        print(f"| {what} | {name} | {spent.wall:.3f} | {spent.user:.3f} | {spent.system:.3f} | {spent.peak / 1e6:.1f} "
              f"| {folder.joinpath(f'out.{name}').stat().st_size / 1e6:.1f} "
              f"| {taken['purecap'].wall / spent.wall:.2f} |", flush=True)


def main() -> None:
    options = argparse.ArgumentParser(description=__doc__, formatter_class=argparse.RawDescriptionHelpFormatter)
    options.add_argument("program")
    options.add_argument("--runs", type=int, default=5)
    options.add_argument("--least", type=int, default=12, help="the least number of relocations, as a power of two")
    options.add_argument("--most", type=int, default=18, help="the greatest number of relocations, as a power of two")
    options.add_argument("--only", choices=["data", "hidden", "code", "real"], help="one kind of objects")
    options.add_argument("--archive", action="append", help="a C library, in place of those that are found")
    options.add_argument("--symtab", action="store_true", help="let the others write their table of symbols")
    given = options.parse_args()
    if shutil.which("clang") is None:
        print("skipped: no clang")
        return
    link = [str(Path(given.program).resolve()), "link"]
    print("| objects | linker | wall, s | user, s | system, s | peak, MB | output, MB | link / it |")
    print("|---|---|---|---|---|---|---|---|")
    for kind in ["data", "hidden", "code"]:
        for objects, power in SIZES:
            if given.only in (None, kind) and given.least <= power <= given.most:
                with tempfile.TemporaryDirectory() as name:
                    folder = Path(name)
                    made = [assembled(source, folder) for source in sources(kind, objects, 1 << power)]
                    measure(f"{objects} {kind}, 2^{power}", [(plain, with_capabilities(plain)) for plain in made],
                            [*link, "--shared", "out"], others(["-shared"], given.symtab), given.runs, folder)
    for archive in map(Path, given.archive or ARCHIVES):
        if given.only in (None, "real") and archive.exists():
            with tempfile.TemporaryDirectory() as name:
                folder = Path(name)
                made = real_objects(archive, folder)
                measure(f"{len(made)} real, {archive}", made, link, others(["-pie", "-z", "notext"], given.symtab),
                        given.runs, folder)


if __name__ == "__main__":
    main()
