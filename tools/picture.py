#!/usr/bin/env python3
"""Makes one HTML page that shows an image: it needs no server, no network and no other file.

    purecap show app.img > shown
    picture.py -o app.html shown
    purecap reach app.img 0x400020c0 > reached
    picture.py -o app.html --word 0x400020c0 --reached reached shown

The page has the address space with its objects, their code, read-only and writable parts, each word and the bounds of
each capability to scale; a matrix of how many capabilities lead from one object to another, with which rights; and for
a chosen word what it reaches, step by step. Names show on hover; a click on an object, a word, bounds or a number of
the matrix looks closer. An image itself may stand in the place of its report.

With `--word` that word is chosen at first; what `--reached` has, as `purecap reach` printed it, must agree with it."""
import argparse
import html
import json
import re
import sys
from bisect import bisect_left
from pathlib import Path

from elf import Broken
from image import Image, Word, read, word_of_line

EXACT = 1 << 53  # a page's numbers are exact below it


def reached_from(words: list[Word], start: int) -> set[int]:
    """The numbers of the words that can be loaded, step by step, from one; words ascend."""
    granules = [word.granule for word in words]
    found, waiting = {start}, [start]
    following = list(range(len(words) + 1))

    def free(i: int) -> int:
        while following[i] != i:
            following[i] = following[following[i]]
            i = following[i]
        return i

    following[start] = start + 1
    while waiting:
        word = words[waiting.pop()]
        if not word.loads_capabilities:
            continue
        i = free(bisect_left(granules, word.base))
        while i < len(words) and granules[i] + 16 <= word.top:
            found.add(i)
            waiting.append(i)
            following[i] = i + 1
            i = free(i)
    return found


def numbered(values: list[str]) -> tuple[list[str], list[int]]:
    """Each value once, and for each place the number of its value."""
    numbers = {value: number for number, value in enumerate(dict.fromkeys(values))}
    return list(numbers), [numbers[value] for value in values]


def data_of(image: Image, words: list[Word], chosen: int) -> dict:
    names, symbols = numbered([word.symbol for word in words])
    seals, seal_numbers = numbered([word.seal for word in words])
    exact = {i: f"[{w.base:#x}, {w.top:#x})" for i, w in enumerate(words) if max(w.base, w.top) >= EXACT}
    return {
        "objects": [{"base": o.base, "size": o.size, "name": o.name} for o in image.objects],
        "words": {"at": [w.granule for w in words], "base": [w.base for w in words], "top": [w.top for w in words],
                  "permissions": [w.permissions for w in words], "seal": seal_numbers, "symbol": symbols,
                  "owner": [-1 if w.owner is None else w.owner for w in words]},
        "names": names, "seals": seals, "exact": exact, "chosen": chosen}


def page(image: Image, title: str, chosen: int = -1) -> str:
    words = sorted(image.words, key=lambda word: word.granule)
    template = Path(__file__).with_name("picture.html").read_text()
    data = json.dumps(data_of(image, words, chosen), separators=(",", ":")).replace("<", "\\u003c")
    parts = {"TITLE": html.escape(title), "IMAGE": data}
    return re.sub(r"\b(TITLE|IMAGE)\b", lambda found: parts[found[0]], template)


def ask_reached(words: list[Word], start: int, text: str) -> None:
    """Refuses what `reach` printed where this isn't what the image's words reach from there."""
    printed = [word for line in text.splitlines() if (word := word_of_line(line))]
    found = sorted(reached_from(words, start))
    if [words[i] for i in found] != printed:
        raise Broken(f"--reached has {len(printed)} words, and the report's words reach {len(found)} or others")


def main() -> int:
    options = argparse.ArgumentParser(description=__doc__, formatter_class=argparse.RawDescriptionHelpFormatter)
    options.add_argument("-o", metavar="PAGE", type=Path, required=True, help="the page that is written")
    options.add_argument("--word", metavar="SLOT", type=lambda word: int(word, 16), help="the word chosen at first")
    options.add_argument("--reached", metavar="REACHED", type=Path, help="what `purecap reach` printed for that word")
    options.add_argument("--title", help="the page's title; without it, the file's name")
    options.add_argument("shown", metavar="SHOWN", type=Path, help="what `purecap show` printed, or an image")
    given = options.parse_args()
    if given.reached and given.word is None:
        options.error("--reached needs --word")
    try:
        image = read(given.shown)
        words, chosen = sorted(image.words, key=lambda word: word.granule), -1
        if given.word is not None:
            chosen = next((i for i, word in enumerate(words) if word.granule == given.word), -1)
            if chosen < 0:
                raise Broken(f"no word at {given.word:#x}")
        if given.reached:
            ask_reached(words, chosen, given.reached.read_text())
        given.o.write_text(page(image, given.title or given.shown.name, chosen))
    except Broken as broken:
        print(f"{given.shown}: {broken}", file=sys.stderr)
        return 1
    except OSError as error:
        print(f"{error.filename}: {error.strerror}", file=sys.stderr)
        return 1
    return 0


if __name__ == "__main__":
    sys.exit(main())
