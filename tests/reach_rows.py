"""Rows of `reach`: which words can be loaded from one, the slots that have none, and images that are refused."""
import re

from objects import SENTRY, UNSEALED, Mapped, Word, image, metadata, u32
from row import Row, Run
from showing_rows import CUTS, two
from users_case import MAPPED, REPORT, img

PAGE = bytes(4096)
FIRST, SECOND = 0x40000000, 0x40002000      # the objects of the images below; nothing stands between them
ALL, READ_ONLY, CODE = 0x7D, 0x15, 0x17
LOAD, LOAD_CAPABILITY = 1 << 2, 1 << 4
EVERYTHING = 0x007D000000000000             # bounds of all addresses


def word(granule: int, base: int, length: int, permissions: int = ALL, kind: int = UNSEALED) -> Word:
    """A word of these bounds, whose address is their base."""
    return Word(granule, base, metadata(base, length, permissions, kind))


def of(*words: Word, version: int = 2) -> bytes:
    """An image of two objects, a page each, with these words."""
    return image([Mapped(base, name, PAGE, [word for word in words if base <= word.granule < base + 4096])
                  for base, name in ((FIRST, "a"), (SECOND, "b"))], version)


def lines(report: str, *slots: int) -> str:
    """The lines of these slots in a report, as they stand there."""
    found = [line for line in report.splitlines(True) if line.startswith("cap ")]
    chosen = [line for line in found if int(line.split()[1], 16) in slots]
    assert len(chosen) == len(slots)
    return "".join(chosen) + f"reached {len(slots)} of {len(found)}\n"


def reaching(shows: str, words: list[Word], slot: int, *reached: int) -> Row:
    """From the slot just these slots are reached. Their lines stand as `show` prints them, which other rows state."""
    made = of(*words)
    return Row("reach: " + shows, {"i": made}, [
        Run(f"reach i {slot:#x}", out=lines(report_of(words), *reached))])


def report_of(words: list[Word]) -> str:
    """The lines of words whose bounds are those of `word`, or all addresses."""
    report = ""
    for w in sorted(words, key=lambda w: w.granule):
        fields = w.metadata ^ 0x00001FFFFC018004
        kind = fields >> 27 & 0x3FFFF
        seal = {UNSEALED: "unsealed", SENTRY: "sentry"}.get(kind, f"sealed {kind}")
        base, top = w.address, w.address + ((fields >> 14) - w.address) % 2**12
        if w.metadata % 2**48 == EVERYTHING % 2**48:
            base, top = 0, 1 << 64
        report += (f"cap {w.granule:#018x} base {base:#018x} top {top:#019x} cursor {w.address:#018x} perms"
                   f" {fields >> 48:04x} flag 0 {seal} owner 0 symbol -\n")
    return report


A, B, C, D = FIRST, FIRST + 0x10, FIRST + 0x20, SECOND + 0xFF0
chain = [word(B, FIRST + 0x800, 16), word(A, B, 16), word(C, D, 16), word(FIRST + 0x800, C, 16), word(D, D, 16)]
circle = [word(A, D, 16), word(D, A, 16), word(B, A, 16)]
row_of_three = [word(A, B, 32), word(B, A, 0), word(C, A, 0)]


def covering(base: int, length: int) -> list[Word]:
    """A word of these bounds, and words at four granules behind it that reach nothing."""
    return [word(D, base, length), *(word(FIRST + at, FIRST, 0) for at in range(0x100, 0x140, 16))]


def alone(permissions: int, kind: int = UNSEALED) -> list[Word]:
    """A word that would reach another one if it may load, and that other one."""
    return [word(A, B, 16, permissions, kind), word(B, B, 0)]


everything = [Word(C, FIRST, EVERYTHING), word(A, A, 0), word(B, SECOND, 0, 0), word(D, D, 0, CODE, SENTRY)]
nothing_at_all = [Word(A, 0, 0), word(B, B, 16)]

COVERED = [
    ("a granule whose first byte is before the bounds", 0x101, 0x2F, [0x110, 0x120]),
    ("a granule whose last byte is behind the bounds", 0x100, 0x2F, [0x100, 0x110]),
    ("granules that lie just within the bounds", 0x110, 0x20, [0x110, 0x120]),
    ("bounds of 15 bytes", 0x110, 15, []),
    ("bounds of 30 bytes that hold one granule", 0x109, 30, [0x110]),
    ("bounds of 31 bytes that hold none", 0x101, 30, []),
    ("bounds of no byte", 0x110, 0, [])]
LOADING = [("all permissions", 0xFFFF), ("no permission but those of loading words", LOAD | LOAD_CAPABILITY),
           ("permissions to read", READ_ONLY), ("permissions of code", CODE)]
NOT_LOADING = [("no permission", 0), ("no permission to load", ALL & ~LOAD),
               ("no permission to load words", ALL & ~LOAD_CAPABILITY),
               ("all permissions but one", 0xFFFF & ~LOAD), ("all permissions but another", 0xFFFF & ~LOAD_CAPABILITY)]

old_img, old_report = image(MAPPED, version=1), re.sub(" owner .*", "", REPORT)
NO_WORD: list[tuple[str, str, str]] = [
    ("a granule without tag", "0x400020e0", "0x400020e0"),
    ("the same with all digits", "0x00000000400020e0", "0x400020e0"),
    ("half a word", "0x400020c8", "0x400020c8"),
    ("a byte behind the first of a word", "0x400020c1", "0x400020c1"),
    ("a byte before a word", "0x400020bf", "0x400020bf"),
    ("an address before the first object", "0x3ffffff0", "0x3ffffff0"),
    ("the address behind the last object", "0x4000b000", "0x4000b000"),
    ("an odd address behind the last object", "0x4000b001", "0x4000b001"),
    ("address 0", "0x0", "0x0"),
    ("the last address", "0xffffffffffffffff", "0xffffffffffffffff"),
    ("the last granule", "0xfffffffffffffff0", "0xfffffffffffffff0"),
    ("a word's slot and 2^32", "0x1400020c0", "0x1400020c0")]


def refused(shows: str, contents: bytes, status: int, told: str) -> Row:
    """The slot has no word either: the image is read first."""
    return Row("reach: " + shows, {"i": contents}, [Run("reach i 0x1", status, err=told)])


ROWS = [
    Row("reach: words that a word reaches in the user's image", {"img": img}, [
        Run("reach img 0x400020c0", out=lines(REPORT, 0x400020C0, 0x40003000, 0x40003010)),
        Run("reach img 0x400020d0", out=lines(REPORT, 0x400020D0)),
        Run("reach img 0x40003000", out=lines(REPORT, 0x40003000)),
        Run("reach img 0x000000004000a000", out=lines(REPORT, 0x4000A000))]),
    Row("reach: an image of version 1", {"img": old_img}, [
        Run("reach img 0x400020c0", out=lines(old_report, 0x400020C0, 0x40003000, 0x40003010)),
        Run("reach img 0x400020d0", out=lines(old_report, 0x400020D0)),
        Run("reach img 0x400020e0", 14, err="img: no tagged word at 0x400020e0")]),
    *(Row("reach: " + shows, {"img": img}, [Run("reach img " + slot, 14, err="img: no tagged word at " + told)])
      for shows, slot, told in NO_WORD),
    Row("reach: an address between two objects", {"i": of(*chain)}, [
        Run("reach i 0x40001000", 14, err="i: no tagged word at 0x40001000")]),
    Row("reach: an image without objects", {"i": image([])}, [
        Run("reach i 0x40000000", 14, err="i: no tagged word at 0x40000000")]),

    reaching("a chain of words", chain, A, A, B, C, FIRST + 0x800, D),
    reaching("a chain from its third word", chain, FIRST + 0x800, C, FIRST + 0x800, D),
    reaching("a chain's last word, which reaches itself", chain, D, D),
    reaching("words that reach each other", circle, A, A, D),
    reaching("the same from the other", circle, D, A, D),
    reaching("a word that nothing reaches", circle, B, A, B, D),
    reaching("two words at once", row_of_three, A, A, B, C),
    *(reaching(shows, covering(FIRST + start, length), D, *(FIRST + at for at in found), D)
      for shows, start, length, found in COVERED),
    *(reaching(shows, alone(permissions), A, A, B) for shows, permissions in LOADING),
    *(reaching(shows, alone(permissions), A, A) for shows, permissions in NOT_LOADING),
    reaching("an entry counts as entered", alone(CODE, SENTRY), A, A, B),
    reaching("an entry without permission to load words", alone(CODE & ~LOAD_CAPABILITY, SENTRY), A, A),
    *(reaching(f"a word that is sealed with the type {kind}", alone(ALL, kind), A, A)
      for kind in (0, 5, SENTRY - 1)),
    reaching("a word of all addresses", everything, C, A, B, C, D),
    reaching("a word of zeros has no permission", nothing_at_all, A, A),

    *(refused(f"an image that is cut to {length} bytes", two[:length], 4, f"i: malformed image end at {length:#x}")
      for length in (CUTS[0], CUTS[5], CUTS[-1])),
    refused("another magic word", two.but({7: b"i"}), 4, "i: malformed image magic at 0x0"),
    refused("version 3", two.but({8: u32(3)}), 5, "i: unsupported image version at 0x8"),
    refused("more than 256 objects", two.but({12: u32(257)}), 9, "limit image objects"),
    refused("a false number of records", two.but({two.at["words m"]: u32(2)}), 4,
            f"i: malformed word record at {two.at['words m']:#x}"),
    refused("a byte more", two + b"\0", 4, f"i: malformed image tail at {len(two):#x}"),
    Row("reach: a file that isn't there", {}, [Run("reach nothere 0x0", 3, err="nothere: no such file")]),
]
