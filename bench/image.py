#!/usr/bin/env python3
"""Times `purecap reach` and `purecap audit` on images with 2^16 to 2^20 tagged words.

    bench/image.py PROGRAM [--runs N] [--most POWER]

The words of an image that is searched have bounds of all addresses, or form one chain, in which each has the bounds of
the next; from the first all are reached. An image that is audited is what `load` writes for a program with as many
capabilities to one symbol. For each size: the bytes of the image and of the output, the least wall time of N runs, time
and peak memory a word, and beside it `cat IMAGE OUTPUT > COPY`, `show` of the same image, and for `audit` the load."""
import argparse
import sys
import tempfile
from pathlib import Path

sys.path.insert(0, str(Path(__file__).resolve().parent.parent / "examples"))
from measure import in_turns, run  # noqa: E402
from shared_object import Relocation, SharedObject, Symbol, written  # noqa: E402
from show import BASE, image  # noqa: E402

EVERYTHING = 0x007D000000000000  # bounds of all addresses
FIRST_BITS = 0x007D000004018004  # a word of short bounds; the lower bits of its base and its end are to be changed


def all_covering(number: int) -> tuple[int, int]:
    """A word that reaches each other one."""
    return BASE, EVERYTHING


def next_covering(number: int) -> tuple[int, int]:
    """A word that reaches the word of the next number."""
    base = BASE + 16 * (number + 1)
    return base, FIRST_BITS ^ ((base + 16) % 2**12 << 14 | base % 2**14)


def program_of(words: int) -> bytes:
    """A program of so many capabilities to one symbol."""
    data = bytes(16 * words)
    return written(SharedObject(data=data, symbols=[Symbol("first", ("data", 0), 16)],
                                relocations=[Relocation(("data", 16 * i), 1) for i in range(words)]))


def main() -> None:
    options = argparse.ArgumentParser(description=__doc__, formatter_class=argparse.RawDescriptionHelpFormatter)
    options.add_argument("program")
    options.add_argument("--runs", type=int, default=5)
    options.add_argument("--most", type=int, default=20, help="the greatest number of words, as a power of two")
    given = options.parse_args()
    program = str(Path(given.program).resolve())
    print("| what | words | image, MB | output, MB | time, s | a word, ns | peak, bytes a word | cat, s | show, s "
          "| load, s | time / cat | time / show |")
    print("|---|---|---|---|---|---|---|---|---|---|---|---|")
    with tempfile.TemporaryDirectory() as name:
        folder = Path(name)

        def measure(what: str, power: int, words_of_command: list[str], more: dict[str, list[str]]) -> None:
            words = 1 << power
            taken = in_turns({"it": [program, *words_of_command], "cat": ["cat", "i", "output"],
                              "show": [program, "show", "i"], **more}, given.runs, folder,
                             {name: folder / name for name in ("cat", "show")} | {"it": folder / "output"})
            it, cat, show = taken["it"], taken["cat"], taken["show"]
            sizes = " | ".join(f"{folder.joinpath(file).stat().st_size / 1e6:.1f}" for file in ("i", "output"))
            load = f"{taken['load'].wall:.3f}" if "load" in taken else "-"
            print(f"| {what} | 2^{power} | {sizes} | {it.wall:.3f} | {it.wall / words * 1e9:.0f} "
                  f"| {it.peak / words:.0f} | {cat.wall:.3f} | {show.wall:.3f} | {load} | {it.wall / cat.wall:.1f} "
                  f"| {it.wall / show.wall:.1f} |", flush=True)

        for what, word in [("reach, each covers all", all_covering), ("reach, a chain", next_covering)]:
            for power in range(16, given.most + 1):
                folder.joinpath("i").write_bytes(image(1 << power, word))
                measure(what, power, ["reach", "i", f"{BASE:#x}"], {})
        load = [program, "load", "-o", "i", "m"]
        for power in range(16, given.most + 1):
            folder.joinpath("m").write_bytes(program_of(1 << power))
            run(load, folder)
            measure("audit", power, ["audit", "i", "m"], {"load": load})


if __name__ == "__main__":
    main()
