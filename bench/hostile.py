#!/usr/bin/env python3
"""Times `purecap load` on files that were made to cost much, each set beside honest files of the same bytes.

    bench/hostile.py PROGRAM [--runs N] [--most POWER] [--hash sysv|gnu] [--only WORD] [--limit SECONDS]

Each shape has a number of symbols, needed names or segments, from 2^12 to 2^16, and with --most up to 2^20 where it
fits into the addresses of a session. The honest files beside it are a program and as many libraries as `load.py` makes
them; the smaller of the two sets gets zeros behind its segments. Where the shape is in the calls, the honest set has
as many calls that are accepted. The two take turns.

For each: wall time, time of the processor and peak memory, the least times of N runs; and the factors to the honest
set. A run that takes more than --limit seconds of the processor is ended, and its shape with it."""
import argparse
import os
import sys
import tempfile
from collections.abc import Callable
from dataclasses import dataclass, replace
from itertools import islice, product
from pathlib import Path

sys.path.insert(0, str(Path(__file__).resolve().parent.parent / "examples"))
from load import library_of, make, names_of, user_of  # noqa: E402
from measure import Spent, in_turns  # noqa: E402
from shared_object import CODE, GLOBAL, LOAD, WEAK, SharedObject, program_header, u64, written  # noqa: E402

CALLS = 64
LONG = 255
KNOWN, UNKNOWN = names_of(0, 1)[0], "library_00_symbol_absent"
REFERENCES = 1 << 18  # a program with more has no room beside its library
PER_RELOCATION, PER_FILE, MOST_BYTES = 158, 3 << 12, 60 << 20  # of honest files
EQUAL = {False: ("Ai", "BY", "CI", "D9"), True: ("A~", "B]", "C<")}  # of one hash; whether by DT_GNU_HASH

Make = Callable[[Path, int, bool], list[str]]


@dataclass
class Shape:
    """What makes the files and answers the words behind `load`; how many libraries the honest set has, or what makes
    it; and the greatest power of two that fits."""
    make: Make
    honest: int | Make = 1
    most: int = 20


def put(folder: Path, name: str, o: SharedObject) -> None:
    folder.joinpath(name).write_bytes(written(o))


# ---- What names cost

def referred(folder: Path, names: list[str], gnu: bool, buckets: int | None = None) -> list[str]:
    """A library with these names, and a program with a capability to each; of very many, to some."""
    put(folder, "lib.so", replace(library_of(names, "lib.so", gnu=gnu), buckets=buckets))
    put(folder, "m", user_of(names if len(names) <= REFERENCES else names[:1 << 12], ["lib.so"], gnu))
    return ["m"]


def one_bucket(folder: Path, count: int, gnu: bool) -> list[str]:
    return referred(folder, names_of(0, count), gnu, 1)


def one_hash(folder: Path, count: int, gnu: bool) -> list[str]:
    length = next(length for length in range(1, 99) if len(EQUAL[gnu]) ** length >= count)
    return referred(folder, ["".join(parts) for parts in islice(product(EQUAL[gnu], repeat=length), count)], gnu)


def long_names(folder: Path, count: int, gnu: bool) -> list[str]:
    return referred(folder, [f"{i:06d}".rjust(LONG, "n") for i in range(count)], gnu)


def one_long_name(folder: Path, count: int, gnu: bool) -> list[str]:
    """A program whose undefined symbols all have one string as their name."""
    put(folder, "lib.so", library_of(["n" * LONG], "lib.so", gnu=gnu))
    put(folder, "m", user_of(["n" * LONG] * count, ["lib.so"], gnu))
    return ["m"]


# ---- What a scope costs

def openings(folder: Path, count: int, gnu: bool) -> list[str]:
    """A library that is opened again and again, whose definitions are weak, so that the search goes on."""
    put(folder, "m", user_of([], []))
    put(folder, "lib.so", library_of(names_of(0, count), "lib.so", WEAK, gnu))
    put(folder, "user.so", user_of(names_of(0, count), [], gnu))
    return ["m", *["global:lib.so"] * (CALLS - 1), "open:user.so"]


def openings_one_bucket(folder: Path, count: int, gnu: bool) -> list[str]:
    """A library that is opened again and again, and has none of the names that are sought."""
    put(folder, "m", user_of([], []))
    put(folder, "lib.so", replace(library_of(names_of(0, count), "lib.so", gnu=gnu), buckets=1))
    put(folder, "own.so", library_of(names_of(1, count), "own.so", gnu=gnu))
    put(folder, "user.so", user_of(names_of(1, count), ["own.so"], gnu))
    return ["m", *["global:lib.so"] * (CALLS - 1), "open:user.so"]


# ---- What objects cost

def needed_names(folder: Path, count: int, gnu: bool) -> list[str]:
    """A program that needs 250 libraries, and the last of them again and again."""
    libraries = [f"l{number:03d}.so" for number in range(250)]
    for name in libraries:
        put(folder, name, library_of([], name))
    put(folder, "m", user_of([], libraries + libraries[-1:] * count))
    return ["m"]


def with_segments(contents: bytes, count: int) -> bytes:
    """The same file with so many empty segments of code more. The program headers stand at its end."""
    headers = contents[64:64 + 6 * 56]
    changed = bytearray(contents)
    changed[32:40], changed[56:58] = u64(len(contents)), (6 + count).to_bytes(2, "little")
    return bytes(changed) + headers + program_header(LOAD, CODE, len(contents), 0, 0, 1) * count


def empty_segments(folder: Path, count: int, gnu: bool) -> list[str]:
    """64 objects with so many segments each; their number has 16 bits."""
    count = min(count, (1 << 16) - 16)
    libraries = [f"l{number:02d}.so" for number in range(63)]
    for name in libraries:
        folder.joinpath(name).write_bytes(with_segments(written(library_of([], name)), count))
    folder.joinpath("m").write_bytes(with_segments(written(user_of([], libraries)), count))
    return ["m"]


# ---- What refused calls cost

def copies(folder: Path, o: SharedObject) -> list[str]:
    names = [f"c{number:02d}.so" for number in range(CALLS)]
    for name in names:
        put(folder, name, o)
    return names


def late(call: str, last: str) -> Make:
    """The library of each call refers to many names, and to this one last."""
    def made(folder: Path, count: int, gnu: bool) -> list[str]:
        names = names_of(0, count // CALLS)
        put(folder, "lib.so", library_of(names, "lib.so", gnu=gnu))
        put(folder, "m", user_of([], ["lib.so"]))
        return ["m", *(f"{call}:{name}" for name in copies(folder, user_of([*names, last], [], gnu)))]
    return made


def behind_much(call: str, last: str) -> Make:
    """The library of each call refers to this name alone, but the program to many."""
    def made(folder: Path, count: int, gnu: bool) -> list[str]:
        words = referred(folder, names_of(0, count), gnu)
        return words + [f"{call}:{name}" for name in copies(folder, user_of([last], [], gnu))]
    return made


SHAPES = {
    "names in one bucket": Shape(one_bucket), "names of one hash": Shape(one_hash),
    "names of 255 bytes that differ in the last": Shape(long_names, most=16),
    "references by one string of 255 bytes": Shape(one_long_name, most=18),
    "63 openings of one library": Shape(openings, 2, 18),
    "63 openings, its names in one bucket": Shape(openings_one_bucket, 3, 16),
    "needed names of 250 libraries": Shape(needed_names, 250),
    "empty segments in each of 64 objects": Shape(empty_segments, 63, 16),
    "64 refused calls, each late": Shape(late("try", UNKNOWN), late("open", KNOWN), 18),
    "64 refused calls behind a large program": Shape(behind_much("try", UNKNOWN), behind_much("open", KNOWN), 18)}


# ---- Measuring

def honest_of(libraries: int, size: int) -> Make:
    """A program and so many libraries, of about so many bytes or as many as a session has room for."""
    def made(folder: Path, count: int, gnu: bool) -> list[str]:
        relocations = (min(size, MOST_BYTES) - PER_FILE * (libraries + 1)) // PER_RELOCATION
        make(folder, [names_of(library, max(1, relocations // libraries)) for library in range(libraries)], GLOBAL, gnu)
        return ["m"]
    return made


def size_of(folder: Path) -> int:
    return sum(file.stat().st_size for file in folder.iterdir())


def lengthen(folder: Path, size: int) -> None:
    """Zeros behind each file, so that all have so many bytes together."""
    files = sorted(folder.iterdir())
    for left, file in zip(range(len(files), 0, -1), files):
        more = (size - size_of(folder)) // left
        os.truncate(file, file.stat().st_size + more)


def told(spent: Spent | None, limit: int) -> str:
    if spent is None:
        return f"> {limit} | - | -"
    return f"{spent.wall:.3f} | {spent.processor:.3f} | {spent.peak / 1e6:.1f}"


def main() -> None:
    options = argparse.ArgumentParser(description=__doc__, formatter_class=argparse.RawDescriptionHelpFormatter)
    options.add_argument("program")
    options.add_argument("--runs", type=int, default=3)
    options.add_argument("--least", type=int, default=12, help="the least number, as a power of two")
    options.add_argument("--most", type=int, default=16, help="the greatest number, as a power of two")
    options.add_argument("--hash", choices=["sysv", "gnu"], default="sysv", help="the table of names")
    options.add_argument("--only", default="", help="the shapes whose name has this word")
    options.add_argument("--limit", type=int, default=60, help="the most seconds of the processor")
    given = options.parse_args()
    load, gnu = [str(Path(given.program).resolve()), "load", "-o", "image"], given.hash == "gnu"
    print("| shape | number | files, MB | hostile: wall, s | processor, s | peak, MB | honest: wall, s | processor, s "
          "| peak, MB | times the wall time | the processor's | the peak |")
    print("|---|---|---|---|---|---|---|---|---|---|---|---|")
    for name, shape in SHAPES.items():
        for power in range(given.least, min(given.most, shape.most) + 1, 2):
            if given.only not in name:
                continue
            with tempfile.TemporaryDirectory() as place:
                bad, good = Path(place, "hostile"), Path(place, "honest")
                bad.mkdir()
                good.mkdir()
                words = shape.make(bad, 1 << power, gnu)
                beside = honest_of(shape.honest, size_of(bad)) if isinstance(shape.honest, int) else shape.honest
                honest_words = beside(good, 1 << power, gnu)
                size = max(size_of(bad), size_of(good))
                lengthen(bad, size)
                lengthen(good, size)
                taken = in_turns({"bad": [*load, "-L", bad.name, f"{bad.name}/{words[0]}", *words[1:]],
                                  "good": [*load, "-L", good.name, f"{good.name}/m", *honest_words[1:]]},
                                 given.runs, place, most=given.limit)
            hostile, honest = taken["bad"], taken["good"]
            factors = "- | - | -"
            if hostile and honest:
                factors = (f"{hostile.wall / honest.wall:.1f} | {hostile.processor / max(honest.processor, 0.001):.1f} "
                           f"| {hostile.peak / honest.peak:.1f}")
            print(f"| {name} | 2^{power} | {size / 1e6:.1f} | {told(hostile, given.limit)} "
                  f"| {told(honest, given.limit)} | {factors} |", flush=True)
            if hostile is None:
                break


if __name__ == "__main__":
    main()
