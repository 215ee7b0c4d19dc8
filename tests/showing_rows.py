"""Rows of `show`: images that are printed, and images that are refused, a case for each check in their order."""
from objects import Mapped, Word, image, u16, u32, u64
from row import Row, Run
from users_case import img

SEALED_5 = 0x1FFFD0000000         # what seals a word with the type 5
ENTRY = 0x8000000                 # what seals it as an entry
PAGE = bytes(4096)
WORD = 0x007D00000405B004         # the first 16 bytes of a page


def one_word(address: int, metadata: int, version: int = 1) -> bytes:
    return image([Mapped(0x40003000, "a", PAGE, [Word(0x40003000, address, metadata)])], version)


def one_line(line: str) -> str:
    return f"object 0x0000000040003000 0x0000000000001000 a\ncap 0x0000000040003000 {line}\nobjects 1 words 1\n"


SHORT = "base 0x0000000040003000 top 0x00000000040003010 cursor 0x0000000040003000 perms 007d flag 0"
long_word = image([Mapped(0x40010000, "b", PAGE * 2, [Word(0x40010000, 0x40010000, 0x007D000000018005)])], 1)
LONG_REPORT = """\
object 0x0000000040010000 0x0000000000002000 b
cap 0x0000000040010000 base 0x0000000040010000 top 0x00000000040012000 cursor 0x0000000040010000 perms 007d flag 0 unsealed
objects 1 words 1
"""
SHOWN = [
    ("no object", image([], 1), "objects 0 words 0\n"),
    ("no object, in version 2", image([]), "objects 0 words 0\n"),
    ("a word with short bounds", one_word(0x40003000, WORD), one_line(SHORT + " unsealed")),
    ("the same in version 2", one_word(0x40003000, WORD, 2), one_line(SHORT + " unsealed owner 0 symbol -")),
    ("a word that is sealed as an entry", one_word(0x40003000, WORD | ENTRY), one_line(SHORT + " sentry")),
    ("a word that is sealed otherwise", one_word(0x40003000, WORD | SEALED_5), one_line(SHORT + " sealed 5")),
    ("a word whose reserved bits are set", one_word(0x40003000, WORD | 3 << 46), one_line(SHORT + " unsealed")),
    ("a word with long bounds", long_word, LONG_REPORT),
    ("a word of zeros", one_word(0, 0), one_line(
        "base 0x0000000000000000 top 0x10000000000000000 cursor 0x0000000000000000 perms 0000 flag 0 unsealed")),
]

two = image([
    Mapped(0x40000000, "m", PAGE, [Word(0x40000010, 0x40000000, WORD, 0, "a"), Word(0x40000000, 0x40000000, WORD, 1),
                                   Word(0x40000020, 0x40000000, WORD, 1, "bc")]),
    Mapped(0x40002000, "n.so", PAGE, [])])
old = image([Mapped(0x40000000, "m", PAGE, [Word(0x40000000, 0x40000000, WORD)]),
             Mapped(0x40002000, "n.so", PAGE, [])], 1)
RECORD_1, RECORD_2 = two.at["record m"], two.at["record n.so"]
WORDS = two.at["words m"]
WORD_1, WORD_2, WORD_3 = WORDS + 4, WORDS + 4 + 13, WORDS + 4 + 13 + 12

# name, the changed bytes, the fault line behind the file's name
HEAD_CASES: list[tuple[str, dict[int, bytes], str]] = [
    ("another magic word", {7: b"i"}, "malformed image magic at 0x0"),
    ("version 0", {8: u32(0)}, "unsupported image version at 0x8"),
    ("version 3", {8: u32(3)}, "unsupported image version at 0x8"),
    ("a base within a page", {RECORD_1: u64(0x40000800)}, f"malformed image object at {RECORD_1:#x}"),
    ("a base before the address space", {RECORD_1: u64(0x3FFFF000)}, f"malformed image object at {RECORD_1:#x}"),
    ("a base before an earlier end", {RECORD_2: u64(0x40000000)}, f"malformed image object at {RECORD_2:#x}"),
    ("an object without bytes", {RECORD_1 + 8: u64(0)}, f"malformed image object at {RECORD_1:#x}"),
    ("an object that passes the last address", {RECORD_1 + 8: u64(-4096)}, f"malformed image object at {RECORD_1:#x}"),
    ("an object behind the address space", {RECORD_2: u64(0x44000000)}, f"malformed image object at {RECORD_2:#x}"),
    ("an object without a name", {RECORD_1 + 16: u16(0)}, f"malformed image name at {RECORD_1 + 16:#x}"),
    ("an object's name of 256 bytes", {RECORD_1 + 16: u16(256)}, f"malformed image name at {RECORD_1 + 16:#x}"),
    ("a byte of a name that is no text", {RECORD_1 + 18: b"\x7f"}, f"malformed image name at {RECORD_1 + 16:#x}"),
]
WORD_CASES: list[tuple[str, dict[int, bytes], str]] = [
    ("a false number of records", {WORDS: u32(2)}, f"malformed word record at {WORDS:#x}"),
    ("a record of what is no granule", {WORD_1: u64(0x40000008)}, f"malformed word record at {WORD_1:#x}"),
    ("a record of another object's granule", {WORD_1: u64(0x40002000)}, f"malformed word record at {WORD_1:#x}"),
    ("a record of a granule without tag", {WORD_1: u64(0x40000030)}, f"malformed word record at {WORD_1:#x}"),
    ("two records of one granule", {WORD_2: u64(0x40000010)}, f"malformed word record at {WORD_2:#x}"),
    ("an owner that isn't there", {WORD_3 + 8: u16(2)}, f"malformed word record at {WORD_3:#x}"),
    ("owners in another order", {WORD_3 + 8: u16(0)}, f"malformed word record at {WORD_3:#x}"),
    ("a symbol's name of 256 bytes", {WORD_2 + 10: u16(256)}, f"malformed word name at {WORD_2 + 10:#x}"),
    ("a byte of a symbol's name that is no text", {WORD_1 + 12: b"\x1f"}, f"malformed word name at {WORD_1 + 10:#x}"),
]
CUTS = [0, 7, 11, 15, 16, 31, 33, 34, two.at["memory m"], two.at["tags m"], WORDS + 3, WORD_1 + 11, WORD_1 + 12,
        len(two) - 1]


def refused(shows: str, contents: bytes, line: str) -> Row:
    status = 5 if line.startswith("unsupported") else 4
    return Row("show: " + shows, {"i": contents}, [Run("show i", status, err="i: " + line)])


ROWS = [
    *(Row("show: " + shows, {"i": contents}, [Run("show i", out=report)]) for shows, contents, report in SHOWN),
    *(refused(f"cut to {length} bytes", two[:length], f"malformed image end at {length:#x}") for length in CUTS),
    *(refused(name, two.but(changes), line) for name, changes, line in HEAD_CASES + WORD_CASES),
    *(refused(name + ", in version 1", old.but(changes), line) for name, changes, line in HEAD_CASES),
    refused("a byte more", two + b"\0", f"malformed image tail at {len(two):#x}"),
    refused("a byte more, in version 1", old + b"\0", f"malformed image tail at {len(old):#x}"),
    refused("the user's image with one record less", img.but({0x50F7: b"\3"}), "malformed word record at 0x50f7"),
    Row("show: more than 256 objects", {"i": two.but({12: u32(257)})}, [Run("show i", 9, err="limit image objects")]),
    Row("show: a file that isn't there", {}, [Run("show nothere", 3, err="nothere: no such file")]),
]
assert img[0x50F7] == 4
assert (two.at["record m"], len(one_word(0, 0))) == (16, 4163)
