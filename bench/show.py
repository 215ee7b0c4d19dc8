#!/usr/bin/env python3
"""Times `purecap show` on images with 2^16 to 2^20 tagged words, beside `cat` of the same image and report.

    bench/show.py PROGRAM [--runs N] [--most POWER]

For each size: the bytes of the image and of the report, the least wall time of N runs, time and peak memory a word,
and the ratio to `cat IMAGE REPORT > COPY`. Each image is one object of which every granule is tagged."""
import argparse
import struct
import tempfile
from collections.abc import Callable
from pathlib import Path

from measure import in_turns

BASE = 0x40000000
METADATA = 0x007D000004099004  # 32 writable bytes, at the address modulo 2^14 of 0x1000


def short(number: int) -> tuple[int, int]:
    """The address and the metadata of a word with short bounds."""
    return BASE + 0x4000 * (number % 64) + 0x1000, METADATA


def image(words: int, word: Callable[[int], tuple[int, int]] = short) -> bytes:
    """One object of `words` tagged granules: the address and the metadata of each by its number."""
    size = 16 * words
    body = b"".join(struct.pack("<QQ", *word(i)) for i in range(words))
    record = struct.pack("<QQH", BASE, size, 1) + b"a"
    return b"PURECAPI" + struct.pack("<II", 1, 1) + record + body + b"\xff" * (size // 128)


def main() -> None:
    options = argparse.ArgumentParser(description=__doc__, formatter_class=argparse.RawDescriptionHelpFormatter)
    options.add_argument("program")
    options.add_argument("--runs", type=int, default=5)
    options.add_argument("--most", type=int, default=20, help="the greatest number of words, as a power of two")
    given = options.parse_args()
    program = str(Path(given.program).resolve())
    print("| words | image, MB | report, MB | show, s | a word, ns | peak, bytes a word | cat, s | show / cat |")
    print("|---|---|---|---|---|---|---|---|")
    with tempfile.TemporaryDirectory() as name:
        folder = Path(name)
        for power in range(16, given.most + 1):
            words = 1 << power
            folder.joinpath("i").write_bytes(image(words))
            taken = in_turns({"show": [program, "show", "i"], "cat": ["cat", "i", "report"]}, given.runs, folder,
                             {"show": folder / "report", "cat": folder / "copy"})
            show, cat = taken["show"], taken["cat"]
            sizes = " | ".join(f"{folder.joinpath(file).stat().st_size / 1e6:.1f}" for file in ("i", "report"))
            print(f"| 2^{power} | {sizes} | {show.wall:.3f} | {show.wall / words * 1e9:.0f} | {show.peak / words:.0f} "
                  f"| {cat.wall:.3f} | {show.wall / cat.wall:.1f} |", flush=True)


if __name__ == "__main__":
    main()
