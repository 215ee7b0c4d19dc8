#!/usr/bin/env python3
"""No definition of a linked file is refused as inexact, shown on random files.

    tests/linked_files_load.py --bin PROGRAM [--seeds A-B] [--model FOLDER]

Each case links random relocatable objects as a program or as a library: data of sizes whose bounds must be rounded,
words, code, common symbols, symbols that share an address, arrays of calls, and capabilities to all of them. The file
that was written is loaded as a main object, and as a library behind main objects of several sizes, so that it stands at
several bases. Each load must end well; status 7, "inexact", is what must never come.

With --model, where the plain model of the program stands, the files of its random cases are linked, and loaded in the
same places. Those may lack libraries and definitions, so that any status but 7 is right."""
import argparse
import random
import subprocess
import sys
import tempfile
from pathlib import Path

sys.path.insert(0, str(Path(__file__).resolve().parent))
from objects import (ALLOCATED, COMMON, READ, READ_CODE, READ_WRITE, WRITABLE, Made, Relocation, Section, Segment, Symbol,
                     data, function, initial_calls, relocatable, shared, text, thing, u32)  # noqa: E402

INEXACT = 7
NOP = u32(0x13)
PAGES = (1, 2, 5, 16, 513, 4097)
SIZES = (0, 1, 7, 16, 24, 100, 4095, 4096, 4097, 5001, 8193, 70_001, 524_289, 1_048_577)


def main_object(pages: int, needed: list[str], wanted: list[str]) -> Made:
    """A main object with a capability to each name, whose last segment has so many pages."""
    segments = (Segment(0, 0x4000, READ), Segment(0x4000, 0x1000, READ_CODE), Segment(0x5000, 0x1000, READ_WRITE),
                Segment(0x6000, 0x1000 * pages, READ_WRITE, 0))
    relocations = [Relocation(0x5000 + 16 * i, name) for i, name in enumerate(wanted)]
    return shared([Symbol(name) for name in wanted], relocations, needed=needed, segments=segments)


def random_object(r: random.Random, unit: int, common: bool) -> tuple[Made, list[str]]:
    """An object, and the names that it defines."""
    sections: list[Section] = []
    symbols: list[Symbol] = []
    for n in range(r.randint(1, 4)):
        name = r.choice((".data", ".data.rel.ro", ".rodata", ".bss")) + f".{n}"
        place, spots = 0, []
        for _ in range(r.randint(1, 5)):
            size = r.choice(SIZES[:11] if r.random() < 0.9 else SIZES)
            place += r.choice((0, 0, 1, 16, 3))
            spots.append((place, size))
            place += size
        contents: bytes | int = place if name.startswith(".bss") else r.randbytes(place)
        flags = ALLOCATED if name.startswith(".rodata") else ALLOCATED | WRITABLE
        sections.append(Section(name, contents, flags, r.choice((1, 2, 8, 16, 64, 4096))))
        for k, (at, size) in enumerate(spots):
            for alias in range(1 + (r.random() < 0.2)):
                symbols.append(thing(f"d{unit}_{n}_{k}_{alias}", name, at, size))
    code = NOP * r.randint(1, 3000)
    sections.append(text(code))
    symbols += [function(f"f{unit}_{k}", ".text", 4 * r.randrange(len(code) // 4), 4) for k in range(2)]
    if common:
        symbols.append(thing(f"c{unit}", COMMON, r.choice((1, 8, 64)), r.choice(SIZES[1:])))
    names = [symbol.name for symbol in symbols]
    fields = r.randint(1, 12)
    sections.append(data(bytes(16 * fields), ".data.fields"))
    relocations = {".data.fields": [Relocation(16 * i, r.choice(names)) for i in range(fields)]}
    if r.random() < 0.3:
        sections.append(initial_calls(bytes(16)))
        relocations[".init_array"] = [Relocation(0, f"f{unit}_0")]
    return relocatable(sections, symbols, relocations), names


class Trial:
    def __init__(self, program: Path) -> None:
        self.program = program
        self.loads = 0

    def run(self, folder: Path, words: list[str]) -> tuple[int, str]:
        ended = subprocess.run([self.program, *words], cwd=folder, stdin=subprocess.DEVNULL, capture_output=True,
                               timeout=120)
        return ended.returncode, ended.stderr.decode("latin-1").strip()

    def load(self, folder: Path, words: list[str], must_end_well: bool) -> None:
        status, said = self.run(folder, ["load", "-o", "loaded.image", *words])
        self.loads += 1
        if status == INEXACT or (must_end_well and status != 0):
            raise SystemExit(f"FAILED: load {' '.join(words)}: status {status}, {said}")

    def load_everywhere(self, folder: Path, file: str, wanted: list[str], must_end_well: bool) -> None:
        self.load(folder, [file], must_end_well)
        for pages in PAGES:
            (folder / "behind.main").write_bytes(main_object(pages, [file], wanted))
            self.load(folder, ["behind.main"], must_end_well)

    def own_case(self, seed: int) -> None:
        r = random.Random(f"linked files {seed}")
        with tempfile.TemporaryDirectory() as name:
            folder = Path(name)
            files, names = [], []
            for unit in range(r.randint(1, 3)):
                made, defined = random_object(r, unit, r.random() < 0.7)
                (folder / f"{unit}.o").write_bytes(made)
                files.append(f"{unit}.o")
                names += defined
            as_library = ["--shared", "out.so"] if r.random() < 0.7 else []
            status, said = self.run(folder, ["link", "-o", "out.so", *as_library, *files])
            if status != 0:
                raise SystemExit(f"FAILED: case {seed}, link: status {status}, {said}")
            wanted = r.sample(names, min(len(names), 200))
            self.load_everywhere(folder, "out.so", wanted, True)

    def model_case(self, case) -> None:
        if any(not name.endswith(".o") for name in case.files):
            return  # a library of another linker may have definitions without exact bounds
        with tempfile.TemporaryDirectory() as name:
            folder = Path(name)
            for file, contents in case.files.items():
                path = folder / file
                path.parent.mkdir(parents=True, exist_ok=True)
                path.write_bytes(contents)
            for words in case.steps:
                status, _ = self.run(folder, words)
                if status == INEXACT:
                    raise SystemExit(f"FAILED: {' '.join(words)}: status {status}")
                if words[0] == "link" and status == 0:
                    file = words[words.index("-o") + 1]
                    if "/" not in file:
                        self.load_everywhere(folder, file, [], False)


def main() -> int:
    parser = argparse.ArgumentParser()
    parser.add_argument("--bin", type=Path, required=True)
    parser.add_argument("--seeds", default="1-40")
    parser.add_argument("--model", type=Path)
    asked = parser.parse_args()
    first, last = map(int, asked.seeds.split("-"))
    trial = Trial(asked.bin.resolve())
    for seed in range(first, last + 1):
        trial.own_case(seed)
    if asked.model:
        sys.path.insert(0, str(asked.model.resolve()))
        import fuzz
        fuzz.Stage.request = 19
        for seed in range(first, last + 1):
            trial.model_case(fuzz.case_of("link", seed))
    print(f"{trial.loads} loads of linked files, none inexact")
    return 0


if __name__ == "__main__":
    sys.exit(main())
