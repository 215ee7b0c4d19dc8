#!/usr/bin/env python3
"""Compares two images by object, bounds and rights, and passes over that addresses moved.

    compare.py ONE OTHER        each an image, or the report of one that `purecap show` printed

Objects are the same by their names. A word is told by its place in its object, and by what it reaches: the object of
its definition, the place there, the length, the cursor, the rights, the seal and the symbol. What one image alone has
is a line; a word that stands elsewhere in its object and reaches the same is no difference, but is counted. Status 0
where nothing differs, 1 where something does, 2 where a file can't be read."""
import argparse
import sys
from collections import Counter
from collections.abc import Iterator
from dataclasses import dataclass
from pathlib import Path

from elf import Broken
from image import Image, Mapped, Word, read, rights


@dataclass(frozen=True)
class Reaches:
    """What a word reaches, whatever the addresses."""
    owner: str
    at: int
    length: int
    cursor: int
    rights: str
    permissions: int
    flag: int
    seal: str
    symbol: str

    def __str__(self) -> str:
        symbol = "" if self.symbol == "-" else f" ({self.symbol})"
        cursor = f", cursor at {self.cursor:#x}" if self.cursor else ""
        return f"{self.owner}+{self.at:#x}{symbol}, {self.length} bytes{cursor}, {self.rights} {self.seal}"


def reaches(image: Image, word: Word) -> Reaches:
    home = word.owner if word.owner is not None else image.home(word.base)
    owner, base = ("nothing", 0) if home is None else (image.objects[home].name, image.objects[home].base)
    return Reaches(owner, word.base - base, word.top - word.base, word.cursor - word.base, rights(word.permissions),
                   word.permissions, word.flag, word.seal, word.symbol)


def by_place(image: Image, o: Mapped) -> dict[int, Reaches]:
    return {word.granule - o.base: reaches(image, word) for word in o.words}


def apart(one: dict[int, Reaches], other: dict[int, Reaches]) -> tuple[list[int], list[int], int]:
    """The places of each whose word the other doesn't have there, nor at another place; how many stand elsewhere."""
    left = [place for place in one if other.get(place) != one[place]]
    right = [place for place in other if one.get(place) != other[place]]
    elsewhere = Counter(one[place] for place in left) & Counter(other[place] for place in right)
    sides = []
    for words, places in ((one, left), (other, right)):
        moved, rest = Counter(elsewhere), []
        for place in places:
            if moved[words[place]]:
                moved[words[place]] -= 1
            else:
                rest.append(place)
        sides.append(rest)
    return sides[0], sides[1], elsewhere.total()


def differences(one: Image, other: Image) -> Iterator[str]:
    ours, theirs = ({o.name: o for o in image.objects} for image in (one, other))
    for name in [*ours, *(name for name in theirs if name not in ours)]:
        a, b = ours.get(name), theirs.get(name)
        if a is None or b is None:
            yield f"{'-' if b is None else '+'} object {name}, {(a or b).size} bytes, {len((a or b).words)} words"
            continue
        if a.size != b.size:
            yield f"! object {name}: {a.size} bytes, and {b.size}"
        before, after = by_place(one, a), by_place(other, b)
        gone, come, _ = apart(before, after)
        for place in sorted({*gone, *come}):
            if place in gone:
                yield f"- {name}+{place:#x}: {before[place]}"
            if place in come:
                yield f"+ {name}+{place:#x}: {after[place]}"


def moved_words(one: Image, other: Image) -> int:
    theirs = {o.name: o for o in other.objects}
    return sum(apart(by_place(one, o), by_place(other, theirs[o.name]))[2] for o in one.objects if o.name in theirs)


def main() -> int:
    options = argparse.ArgumentParser(description=__doc__, formatter_class=argparse.RawDescriptionHelpFormatter)
    options.add_argument("one", metavar="ONE", type=Path)
    options.add_argument("other", metavar="OTHER", type=Path)
    given = options.parse_args()
    images = []
    for path in (given.one, given.other):
        try:
            images.append(read(path))
        except (Broken, OSError) as why:
            print(f"{path}: {why.strerror if isinstance(why, OSError) else why}", file=sys.stderr)
            return 2
    found = list(differences(*images))
    print(*found, sep="\n", end="\n" if found else "")
    print(f"{len(found)} differences, {moved_words(*images)} words elsewhere in their objects")
    return 1 if found else 0


if __name__ == "__main__":
    sys.exit(main())
