"""Rows of `load`: what each slot holds, in which order objects are loaded, and which definition a name is bound to."""
from objects import (NONE, RELATIVE, THREE_SEGMENTS, ABSOLUTE, READ, READ_WRITE, WEAK, WORD_64, Made, Mapped,
                     Relocation, Segment, Symbol, Word, data, image, relocatable, shared, thing, u64, up)
from shared_object import FUNCTION_ENTRY, READ_ONLY_ENTRY, WRITABLE_ENTRY
from row import Holds, Row, Run
from users_case import FILES, LOADING, img, libh

FIVE_PAGES = (Segment(0, 0x1000, READ), Segment(0x2000, 0x3000, READ_WRITE))


def alone(shows: str, object: bytes, words: list[Word], plain: dict[int, bytes] | None = None) -> Row:
    """One object is loaded: its memory is its file, but for its words and the numbers in plain slots."""
    memory = Made(object.ljust(up(len(object), 4096), b"\0"), {}).but(plain or {})
    made = image([Mapped(0x40000000, "m", memory, words)])
    return Row(shows, {"m": object}, [Run("load -o i m", created={"i": made})])


def refused(shows: str, object: bytes, status: int, line: str) -> Row:
    return Row(shows, {"m": object}, [Run("load -o i m", status, err=line)])


def shown(shows: str, files: dict[str, bytes], calls: str, report: str) -> Row:
    """A load, and what its image then shows."""
    return Row(shows, files, [Run(f"load -o i {calls}", created={"i": Holds()}), Run("show i", out=report)])


def entries(*given: tuple[int, ...], segments: tuple[Segment, ...] = THREE_SEGMENTS) -> Made:
    """An object with these entries: slot, target, offset, size and permissions of each. The first stands at 0x200."""
    return shared(entries=list(given), segments=segments, at={"entries": 0x200})


def records(*given: Relocation) -> Made:
    """An object with these relocations by its symbol `d` of 32 bytes. The first stands at 0x300."""
    return shared([thing("d", 1, 0x3000, 32)], list(given), at={"relocations": 0x300})


def bounds(slot: int, base: int, size: int, owner: int, name: str) -> str:
    return (f"cap {slot:#018x} base {base:#018x} top {base + size:#019x} cursor {base:#018x} perms 007d flag 0 unsealed"
            f" owner {owner} symbol {name}\n")


def listed(*objects: tuple[int, int, str]) -> str:
    return "".join(f"object {base:#018x} {size:#018x} {name}\n" for base, size, name in objects)


def of_four_pages(*names: str) -> str:
    return listed(*((0x40000000 + 0x4000 * i, 0x4000, name) for i, name in enumerate(names)))


def hashed(*words: int) -> Made:
    """An object that defines `a` and `b`, with these words as its hash table, which stands at 0x200."""
    return shared([thing("a", 1, 0x3000, 8), thing("b", 1, 0x3010, 8)], words=list(words), at={"hash": 0x200})


def large_symbol(address: int) -> Made:
    return shared([thing("big", 1, address, 4096)], [Relocation(0x2000, "big")], segments=FIVE_PAGES)


def of_span(span: int) -> Made:
    return shared(segments=(Segment(0, 0x1000, READ), Segment(0x2000, span - 0x2000, READ_WRITE, 0)))


weak_and_strong = {
    "weak.o": relocatable([data(bytes(16))], [thing("f", ".data", 0, 16, WEAK)]),
    "strong.o": relocatable([data(bytes(16))], [thing("f", ".data", 0, 16)]),
    "m.o": relocatable([data(bytes(16))], [Symbol("f")], {".data": [Relocation(0, "f")]})}


def weak_and_strong_report(base: int, owner: int) -> str:
    return (listed((0x40000000, 0x3000, "app"), (0x40003000, 0x3000, "weak.so"), (0x40006000, 0x3000, "strong.so"))
            + bounds(0x40002000, base, 16, owner, "f") + "objects 3 words 1\n")


def bound_in(tags: list[tuple[int, int]], base: int, owner: int) -> tuple[dict[str, bytes], str, str]:
    """A program and its library both define `f`, and the library, which has these tags, asks for it."""
    f = thing("f", 1, 0x3000, 16)
    files = {"m": shared([f], needed=["x.so"]), "x.so": shared([f], [Relocation(0x2000, "f")], more_tags=tags)}
    return files, "m", of_four_pages("m", "x.so") + bounds(0x40006000, base, 16, owner, "f") + "objects 2 words 1\n"


shared_by_two = {"p": shared(needed=["x.so", "y.so"]), "x.so": shared(needed=["z.so"]), "y.so": shared(needed=["z.so"]),
                 "z.so": shared()}
in_a_circle = {"p": shared(needed=["x.so"]), "x.so": shared(needed=["y.so"]), "y.so": shared(needed=["x.so"])}

defining = shared([thing("g", 1, 0x3000, 16)])
asking = shared([Symbol("g")], [Relocation(0x2000, "g")])
opened = {"p": shared(), "a.so": defining, "c.so": asking}
p_and_a = image([Mapped(0x40000000, "p", shared().ljust(0x4000, b"\0"), []),
                 Mapped(0x40004000, "a.so", defining.ljust(0x4000, b"\0"), [])])

good_and_bad = {"app": shared(), "lib/good.so": shared([thing("k", 1, 0x3000, 8)]),
                "lib/bad.so": shared([Symbol("gone")], [Relocation(0x2000, "gone")])}
app_and_good = image([Mapped(0x40000000, "app", good_and_bad["app"], []),
                      Mapped(0x40004000, "good.so", good_and_bad["lib/good.so"], [])])

entry_and_record = shared([thing("d", 1, 0x3000, 32)], [Relocation(0x2000, "d")],
                          [(0x2000, 0x3000, 0, 32, WRITABLE_ENTRY)], at={"relocations": 0x300})
absolute = shared([Symbol("w", binding=WEAK), thing("five", ABSOLUTE, 5, 0)],
                  [Relocation(0x2000, "w"), Relocation(0x2010, "five")])

LIBH_CHANGES = [
    ("cut to 63 bytes", libh[:63], 4, "malformed file header at 0x3f"),
    ("of 32 bits", Made(libh, {}).but({4: b"\1"}), 5, "unsupported class at 0x4"),
    ("cut by one byte", libh[:0x2FFF], 4, "malformed segment range at 0xb0"),
    ("with its code at 0", Made(libh, {}).but({64 + 56 + 16: u64(0)}), 4, "malformed segment order at 0x78"),
    ("whose dynamic table has no end", Made(libh, {}).but({0x2060: u64(14)}), 4, "malformed dynamic end at 0x2000"),
    ("whose hash chain goes in a circle", Made(libh, {}).but({0x1D0: b"\1"}), 4, "malformed hash chain at 0x1c0")]
hidden = Made(libh, {}).but({0x1C8: bytes(4)})


def many_libraries(count: int) -> dict[str, bytes]:
    names = [f"{i}.so" for i in range(count)]
    small = shared(segments=(Segment(0, 0x1000, READ_WRITE, 0x200),))
    return {"m": shared(needed=names, segments=(Segment(0, 0x4000, READ_WRITE),))} | {name: small for name in names}


ROWS = [
    alone("a library without relocations is loaded as a program", libh, []),
    Row("a linked library makes an image of known size", {"libh.so": libh}, [
        Run("load -o img libh.so", created={
            "img": Holds({0: image([Mapped(0x40000000, "libh.so", libh, [])])}, 12429)}),
        Run("show img", out="object 0x0000000040000000 0x0000000000003000 libh.so\nobjects 1 words 0\n")]),

    alone("an entry gets the bounds of its interval and its cursor", entries((0x2000, 0x3000, 32, 32, WRITABLE_ENTRY)),
          [Word(0x40002000, 0x40003020, 0x007D00000409B004)]),
    alone("an entry of a function is sealed", entries((0x2010, 0x1004, 0, 0, FUNCTION_ENTRY)),
          [Word(0x40002010, 0x40001004, 0x0017200008018005)]),
    alone("an entry that is read only may not write", entries((0x2020, 0x100, 0, 16, READ_ONLY_ENTRY)),
          [Word(0x40002020, 0x40000100, 0x0015000004458104)]),
    refused("an entry's cursor is behind its end", entries((0x2000, 0x3000, 33, 32, WRITABLE_ENTRY)), 4,
            "m: malformed addend at 0x200"),
    refused("an entry would write to what can't be written", entries((0x2000, 0x100, 0, 16, WRITABLE_ENTRY)), 4,
            "m: malformed capability permissions at 0x200"),
    refused("an entry of a function has an offset", entries((0x2000, 0x1004, 1, 0, FUNCTION_ENTRY)), 4,
            "m: malformed addend at 0x200"),
    refused("an entry's bounds can't be exact",
            entries((0x2000, 0x3004, 0, 4096, WRITABLE_ENTRY), segments=FIVE_PAGES), 7,
            "m: inexact - 0x40003004 0x1000"),
    refused("two entries have one slot",
            entries((0x2000, 0x3000, 0, 16, WRITABLE_ENTRY), (0x2000, 0x3000, 0, 16, WRITABLE_ENTRY)), 4,
            "m: malformed relocation slot at 0x228"),
    refused("an entry's slot isn't at a multiple of 16",
            entries((0x3008, 0x3000, 0, 16, WRITABLE_ENTRY), (0x2000, 0x3000, 0, 16, WRITABLE_ENTRY)), 4,
            "m: malformed relocation slot at 0x200"),
    refused("an entry and a relocation have one slot", entry_and_record, 4, "m: malformed relocation slot at 0x300"),

    alone("a capability points at the end of its symbol, and keeps its bounds", records(Relocation(0x2000, "d", 32)),
          [Word(0x40002000, 0x40003020, 0x007D00000409B004, 0, "d")]),
    refused("a capability would point behind the end of its symbol", records(Relocation(0x2000, "d", 33)), 4,
            "m: malformed addend at 0x300"),
    refused("a slot behind the last segment",
            records(Relocation(0x4000 - 8, "d", kind=WORD_64), Relocation(0x4000, "d")), 4,
            "m: malformed relocation slot at 0x318"),
    refused("a slot that is the second half of another",
            records(Relocation(0x2000, "d"), Relocation(0x2008, "d", kind=WORD_64)), 4,
            "m: malformed relocation slot at 0x318"),
    refused("two relocations have one slot", records(Relocation(0x2000, "d"), Relocation(0x2000, "d")), 4,
            "m: malformed relocation slot at 0x318"),
    alone("slots of 8 bytes have addresses, and no tag",
          records(Relocation(0x2000, "d", 1, WORD_64), Relocation(0x2008, 0, 16, RELATIVE), Relocation(0, 0, 0, NONE)),
          [], {0x2000: u64(0x40003001, 0x40000010)}),
    alone("a long symbol at a multiple of 8 has exact bounds", large_symbol(0x3008),
          [Word(0x40002000, 0x40003008, 0x007D00000003B00C, 0, "big")]),
    refused("a long symbol that isn't at a multiple of 8 has none", large_symbol(0x3004), 7,
            "m: inexact big 0x40003004 0x1000"),
    alone("an undefined weak symbol is 0 and an absolute one its value, and neither has a tag", absolute, [],
          {0x2000: bytes(16), 0x2010: u64(5, 0)}),
    shown("slots without tag aren't shown", {"m": absolute}, "m", of_four_pages("m") + "objects 1 words 0\n"),
    refused("an undefined symbol that isn't weak", asking, 6, "m: unresolved g"),

    Row("a program fills the whole address space", {"m": of_span(0x4000000)}, [
        Run("load -o i m", created={"i": Holds({0: b"PURECAPI", 16: u64(0x40000000, 0x4000000)},
                                               16 + 19 + 0x4000000 + 0x4000000 // 128 + 4)})]),
    refused("a program is a page longer than the address space", of_span(0x4001000), 8, "m: full, asked 0x4001000"),

    Row("a later definition outweighs a weak one, but not where the first found is asked for", weak_and_strong, [
        Run("link -o weak.so --shared weak.so weak.o", created={"weak.so": Holds()}),
        Run("link -o strong.so --shared strong.so strong.o", created={"strong.so": Holds()}),
        Run("link -o app m.o weak.so strong.so", created={"app": Holds()}),
        Run("load -o i app", created={"i": Holds()}),
        Run("show i", out=weak_and_strong_report(0x40008000, 2)),
        Run("load -o i --first-found app", created={"i": Holds()}),
        Run("show i", out=weak_and_strong_report(0x40005000, 1))]),
    shown("a library's name is looked up in the program first", *bound_in([], 0x40003000, 0)),
    shown("a library with DT_SYMBOLIC looks its names up in itself first", *bound_in([(16, 0)], 0x40007000, 1)),
    shown("so does a library with DF_SYMBOLIC in its flags", *bound_in([(30, 2)], 0x40007000, 1)),
    shown("so does one with DF_SYMBOLIC in any of its flags", *bound_in([(30, 8), (30, 10), (30, 1)], 0x40007000, 1)),
    shown("a library with other flags doesn't", *bound_in([(30, 9)], 0x40003000, 0)),
    shown("objects are loaded in breadth, and one that two need once", shared_by_two, "p",
          of_four_pages("p", "x.so", "y.so", "z.so") + "objects 4 words 0\n"),
    shown("objects that need each other are loaded once", in_a_circle, "p",
          of_four_pages("p", "x.so", "y.so") + "objects 3 words 0\n"),
    Row("a needed library isn't there", {"p": in_a_circle["p"], "lib/x.so": in_a_circle["x.so"]}, [
        Run("load -o i -L lib p", 3, err="lib/y.so: no such file")]),
    Row("a second, global open of a library loads nothing and changes no word", opened, [
        Run("load -o i p open:a.so", created={"i": p_and_a}),
        Run("load -o i p open:a.so global:a.so", created={"i": p_and_a})]),
    Row("what is opened for itself alone isn't seen by later libraries", opened, [
        Run("load -o i p open:a.so open:c.so", 6, err="./c.so: unresolved g")]),
    shown("what is opened for all is seen by later libraries", opened, "p open:a.so global:a.so open:c.so",
          of_four_pages("p", "a.so", "c.so") + bounds(0x4000A000, 0x40007000, 16, 1, "g") + "objects 3 words 1\n"),
    Row("a refused open ends the load, and no image is made", good_and_bad, [
        Run("load -o i -L lib app open:good.so open:bad.so", 6, err="lib/bad.so: unresolved gone")]),
    Row("a tried library that is refused leaves no trace but its line", good_and_bad, [
        Run("load -o i -L lib app open:good.so", created={"i": app_and_good}),
        *(Run("load -o i -L lib app " + calls, err="lib/bad.so: unresolved gone", created={"i": app_and_good})
          for calls in ("open:good.so try:bad.so", "try:bad.so open:good.so"))]),
    Row("a tried library isn't there", FILES, [
        Run("load -o img -L lib app try:gone.so open:libp.so", err="lib/gone.so: no such file", created={"img": img})]),

    *(refused("a library " + change, changed, status, "m: " + line) for change, changed, status, line in LIBH_CHANGES),
    alone("a hash table whose two names stand on one chain", hashed(1, 3, 2, 0, 0, 1), []),
    refused("a hash chain that comes back to itself", hashed(1, 3, 2, 0, 0, 2), 4, "m: malformed hash chain at 0x200"),
    refused("a hash chain of no symbol", hashed(1, 3, 3, 0, 0, 1), 4, "m: malformed hash chain at 0x200"),
    refused("a hash chain that hides its second name", hashed(1, 3, 1, 0, 0, 0), 4, "m: malformed hash chain at 0x200"),
    Row("a hash table that hides a name is refused by the path of its library", FILES | {"lib/libh.so": hidden}, [
        Run(LOADING, 4, err="lib/libh.so: malformed hash chain at 0x1c0")]),
    Row("the same, of a library that is opened", FILES | {"lib/libx.so": hidden}, [
        Run("load -o img -L lib app open:libx.so", 4, err="lib/libx.so: malformed hash chain at 0x1c0"),
        Run("load -o img -L lib app try:libx.so open:libp.so", err="lib/libx.so: malformed hash chain at 0x1c0",
            created={"img": img})]),
    Row("the same, of a program in a folder", {"lib/m": hidden}, [
        Run("load -o img lib/m", 4, err="lib/m: malformed hash chain at 0x1c0")]),
    Row("256 objects are loaded", many_libraries(255), [Run("load -o i m", created={"i": Holds({12: b"\0\1\0\0"})})]),
    Row("257 objects aren't", many_libraries(256), [Run("load -o i m", 9, err="limit objects")]),
]
