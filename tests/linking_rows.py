"""Rows of `link`: where the parts of the linked file stand, and what code and capabilities become in it."""
from objects import (NEEDED, RELOCATIONS, RELOCATIONS_SIZE, RELOCATION_SIZE, SONAME, INIT, INIT_SIZE, CAPABILITY, WEAK,
                     HIDDEN, OBJECT, FUNCTION, initial_calls, ENTRIES, ENTRIES_SIZE, HASH, STRINGS, STRINGS_SIZE,
                     SYMBOLS, SYMBOL_SIZE, ALLOCATED, BRANCH, COMMON, COPY, FINI, FINI_ARRAY, FINI_SIZE, JAL, LOAD,
                     NOTE, READ, READ_CODE, READ_WRITE, RELRO, WRITABLE, Made, Relocation, Section, Symbol, data,
                     function, label, program_header, relocatable, shared, text, thing, u32, u64, zeros)
from row import Holds, Row, Run
from users_case import NO_SYMBOL, NOP, asked, exported, linked

SIZES = {"a": 1, "b": 5001, "c": 100000}
three = relocatable([data(bytes(size), f".data.{name}", 1) for name, size in SIZES.items()],
                    [thing(name, f".data.{name}", 0, size) for name, size in SIZES.items()])
three_linked = linked(
    0x217, (0x1000, 0x1000), (0x1000, 0x2000), (0x2000, 0x1BB00, 0x1BB00),
    {HASH: 0x1F0, STRINGS: 0x210, SYMBOLS: 0x190, STRINGS_SIZE: 7, SYMBOL_SIZE: 24},
    {0x190: NO_SYMBOL + exported(1, 0x2000, 1) + exported(3, 0x2008, 5008) + exported(5, 0x3400, 100096),
     0x1F0: u32(2, 4, 2, 3, 0, 0, 0, 1),
     0x210: b"\0a\0b\0c\0"})

own_end = relocatable([data(bytes(16))], [thing("q", ".data", 0, 16)], {".data": [Relocation(0, "q", 16)]})
own_end_linked = linked(
    0x1FF, (0x1000, 0x1000), (0x1000, 0x2000), (0x2000, 0x2010, 0x2010),
    {HASH: 0x1E8, STRINGS: 0x1FC, SYMBOLS: 0x190, STRINGS_SIZE: 3, SYMBOL_SIZE: 24, ENTRIES: 0x1C0, ENTRIES_SIZE: 40},
    {0x190: NO_SYMBOL + exported(1, 0x2000, 16),
     0x1C0: u64(0x2000, 0x2000, 16, 16, 0),
     0x1E8: u32(1, 2, 1, 0, 0),
     0x1FC: b"\0q\0"})
OWN_END_REPORT = """\
object 0x0000000040000000 0x0000000000003000 q
cap 0x0000000040002000 base 0x0000000040002000 top 0x00000000040002010 cursor 0x0000000040002010 perms 007d flag 0 unsealed owner 0 symbol -
objects 1 words 1
"""

# The note is in memory, and has a relocation that no section of a program may have.
with_note = relocatable(
    [Section(".note.made", u32(5, 4, 1) + b"made\0\0\0\0" + u32(7), ALLOCATED, 4, NOTE), data(bytes(16))],
    [thing("q", ".data", 0, 16)], {".note.made": [Relocation(20, "q", kind=COPY)], ".data": [Relocation(0, "q", 16)]})

common = linked(
    0x1FE, (0x1000, 0x1000), (0x1000, 0x2000), (0x2000, 0x2000, 0x2010),
    {HASH: 0x1D8, STRINGS: 0x1F0, SYMBOLS: 0x190, STRINGS_SIZE: 14, SYMBOL_SIZE: 24},
    {0x190: NO_SYMBOL + exported(1, 0x2008, 8) + exported(7, 0x2000, 4),
     0x1D8: u32(1, 3, 2, 0, 0, 1),
     0x1F0: b"\0count\0before\0"})

calls_first = relocatable([text(NOP), initial_calls(bytes(16))], [function("go", ".text", 0, 4)],
                          {".init_array": [Relocation(0, "go")]})
calls_first_linked = linked(
    0x1F8, (0x1000, 0x1004), (0x2000, 0x3000), (0x3000, 0x3000, 0x3000),
    {SONAME: 4, HASH: 0x1D8, STRINGS: 0x1EC, SYMBOLS: 0x190, STRINGS_SIZE: 12, SYMBOL_SIZE: 24, RELOCATIONS: 0x1C0,
     RELOCATIONS_SIZE: 24, RELOCATION_SIZE: 24, INIT: 0x20C0, INIT_SIZE: 16},
    {0x190: NO_SYMBOL + exported(1, 0x1000, 4, FUNCTION),
     0x1C0: u64(0x20C0, 1 << 32 | CAPABILITY, 0),
     0x1D8: u32(1, 2, 1, 0, 0),
     0x1EC: b"\0go\0libi.so\0",
     0x1000: NOP})
CALLS_FIRST_REPORT = """\
object 0x0000000040000000 0x0000000000003000 libi.so
cap 0x00000000400020c0 base 0x0000000040000000 top 0x00000000040003000 cursor 0x0000000040001000 perms 0017 flag 1 sentry owner 0 symbol go
objects 1 words 1
"""

# The final calls stand first in the object, and the first of two initial calls is none.
calls_both = relocatable(
    [text(NOP * 2), Section(".fini_array", bytes(16), ALLOCATED | WRITABLE, 16, FINI_ARRAY), initial_calls(bytes(32))],
    [function("go", ".text", 0, 4), function("end", ".text", 4, 4)],
    {".fini_array": [Relocation(0, "end")], ".init_array": [Relocation(16, "go")]})
calls_both_linked = linked(
    0x230, (0x1000, 0x1008), (0x2000, 0x3000), (0x3000, 0x3000, 0x3000),
    {SONAME: 8, HASH: 0x208, STRINGS: 0x220, SYMBOLS: 0x190, STRINGS_SIZE: 16, SYMBOL_SIZE: 24, RELOCATIONS: 0x1D8,
     RELOCATIONS_SIZE: 48, RELOCATION_SIZE: 24, INIT: 0x20E0, INIT_SIZE: 32, FINI: 0x2100, FINI_SIZE: 16},
    {0x190: NO_SYMBOL + exported(1, 0x1000, 4, FUNCTION) + exported(4, 0x1004, 4, FUNCTION),
     0x1D8: u64(0x2100, 2 << 32 | CAPABILITY, 0) + u64(0x20F0, 1 << 32 | CAPABILITY, 0),
     0x208: u32(1, 3, 2, 0, 0, 1),
     0x220: b"\0go\0end\0libi.so\0",
     0x1000: NOP * 2})
CALLS_BOTH_REPORT = """\
object 0x0000000040000000 0x0000000000003000 libi.so
cap 0x00000000400020f0 base 0x0000000040000000 top 0x00000000040003000 cursor 0x0000000040001000 perms 0017 flag 1 sentry owner 0 symbol go
cap 0x0000000040002100 base 0x0000000040000000 top 0x00000000040003000 cursor 0x0000000040001004 perms 0017 flag 1 sentry owner 0 symbol end
objects 1 words 2
"""

weakly = relocatable([data(bytes(16))], [thing("d", ".data", 0, 16), Symbol("w", binding=WEAK)],
                     {".data": [Relocation(0, "w")]})
weakly_linked = linked(
    0x212, (0x1000, 0x1000), (0x1000, 0x2000), (0x2000, 0x2010, 0x2010),
    {NEEDED: 5, HASH: 0x1F0, STRINGS: 0x208, SYMBOLS: 0x190, STRINGS_SIZE: 10, SYMBOL_SIZE: 24, RELOCATIONS: 0x1D8,
     RELOCATIONS_SIZE: 24, RELOCATION_SIZE: 24},
    {0x190: NO_SYMBOL + exported(1, 0x2000, 16) + asked(3, WEAK),
     0x1D8: u64(0x2000, 2 << 32 | CAPABILITY, 0),
     0x1F0: u32(1, 3, 2, 0, 0, 1),
     0x208: b"\0d\0w\0x.so\0"})

hiding = relocatable([data(bytes(32))],
                     [thing("p", ".data", 0, 16), Symbol("h", ".data", 16, 16, OBJECT, visibility=HIDDEN)],
                     {".data": [Relocation(0, "h")]})
hiding_linked = linked(
    0x203, (0x1000, 0x1000), (0x1000, 0x2000), (0x2000, 0x2020, 0x2020),
    {SONAME: 3, HASH: 0x1E8, STRINGS: 0x1FC, SYMBOLS: 0x190, STRINGS_SIZE: 7, SYMBOL_SIZE: 24, ENTRIES: 0x1C0,
     ENTRIES_SIZE: 40},
    {0x190: NO_SYMBOL + exported(1, 0x2000, 16),
     0x1C0: u64(0x2000, 0x2010, 0, 16, 0),
     0x1E8: u32(1, 2, 1, 0, 0),
     0x1FC: b"\0p\0out\0"})


def jump(contents: bytes, at: int, kind: int, target: int) -> Made:
    return relocatable([text(contents)], [label("target", target)], {".text": [Relocation(at, "target", kind=kind)]})


def rounded_row(shows: str, start: int, end: int, rounded: int, alignment: int) -> Row:
    """A library whose dynamic table of 112 bytes is at the start, and whose data that is read-only after relocation
    ends at the end. A caller gets a capability to its function: its bounds end at the rounded end."""
    whole = relocatable([text(bytes(start - 0x1000)), data(bytes(end - start - 112), ".data.rel.ro", 1)],
                        [function("f", ".text", 0, 4)])
    headers = (program_header(LOAD, READ_CODE, 0x1000, start - 0x1000, start - 0x1000, alignment)
               + program_header(LOAD, READ_WRITE, start, rounded - start, rounded - start, alignment)
               + program_header(LOAD, READ_WRITE, rounded, 0, 0, alignment))
    caller = shared([Symbol("f")], [Relocation(0x2000, "f")], needed=["whole"])
    report = (f"object 0x0000000040000000 0x0000000000004000 m\nobject 0x0000000040004000 {rounded:#018x} whole\n"
              f"cap 0x0000000040002000 base 0x0000000040004000 top {0x40004000 + rounded:#019x}"
              " cursor 0x0000000040005000 perms 0017 flag 1 sentry owner 1 symbol f\nobjects 2 words 1\n")
    return Row(shows, {"whole.o": whole, "m": caller}, [
        Run("link -o whole --shared whole whole.o", created={"whole": Holds({
            64 + 56: headers, 64 + 5 * 56: program_header(RELRO, READ, start, rounded - start, rounded - start, 1)})}),
        Run("load -o i m", created={"i": Holds()}),
        Run("show i", out=report)])


ROWS = [
    Row("data is padded to bounds that a capability can have, and placed at their alignment", {"abc.o": three}, [
        Run("link -o app abc.o", created={"app": three_linked}),
        Run("load -o i app", created={"i": Holds(length=16 + 18 + 3 + 0x1C000 + 0x1C000 // 128 + 4)})]),
    Row("a symbol that points at its own end has its own bounds", {"q.o": own_end}, [
        Run("link -o q q.o", created={"q": own_end_linked}),
        Run("load -o i q", created={"i": Holds({16 + 19 + 0x2000: u64(0x40002010, 0x007D00000405A004)})}),
        Run("show i", out=OWN_END_REPORT)]),
    Row("a note isn't linked, and its relocations are passed over", {"q.o": with_note}, [
        Run("link -o q q.o", created={"q": own_end_linked})]),
    Row("common symbols of one name have the largest size and alignment of all",
        {"a.o": relocatable([], [thing("count", COMMON, 4, 4)]),
         "b.o": relocatable([zeros(4)], [thing("count", COMMON, 8, 8), thing("before", ".bss", 0, 4)])}, [
            Run("link -o app a.o b.o", created={"app": common})]),
    Row("initial calls stand behind the dynamic table, and become entries into code", {"i.o": calls_first}, [
        Run("link -o libi.so --shared libi.so i.o", created={"libi.so": calls_first_linked}),
        Run("load -o i libi.so", created={"i": Holds()}),
        Run("show i", out=CALLS_FIRST_REPORT)]),
    Row("final calls stand behind the initial ones, wherever they stand in the object", {"i.o": calls_both}, [
        Run("link -o libi.so --shared libi.so i.o", created={"libi.so": calls_both_linked}),
        Run("load -o i libi.so", created={"i": Holds()}),
        Run("show i", out=CALLS_BOTH_REPORT),
        Run("init libi.so", out="call 0x00000000400020f0 0x0000000040001000 libi.so\ncalls 1\n")]),
    Row("a library without a name of its own is needed by its file's name, and once",
        {"m.o": weakly, "lib/x.so": shared(), "other/x.so": shared()}, [
            Run("link -o app m.o lib/x.so other/x.so", created={"app": weakly_linked})]),
    Row("a library is needed by its own name", {"m.o": weakly, "long.so": shared(soname="x.so")}, [
        Run("link -o app m.o long.so", created={"app": weakly_linked})]),
    Row("a hidden symbol isn't exported, and a capability to it is the library's own", {"o.o": hiding}, [
        Run("link -o out --shared out o.o", created={"out": hiding_linked})]),
    rounded_row("the range of code ends with a page, whose length is exact", 0x3FD000, 0x3FE001, 0x3FF000, 4096),
    rounded_row("the range of code ends with a page, and asks for more alignment", 0x3FF000, 0x3FFFF1, 0x400000, 8192),
    rounded_row("the range of code ends behind its page, where its length is exact", 0x3FF000, 0x400001, 0x402000,
                8192),
    Row("a jump forward", {"o.o": jump(u32(0x6F) + bytes(16), 0, JAL, 16)}, [
        Run("link -o x o.o", created={"x": Holds({0x1000: u32(0x0100006F)})})]),
    Row("a branch backward", {"o.o": jump(bytes(4) + u32(0x63), 4, BRANCH, 0)}, [
        Run("link -o x o.o", created={"x": Holds({0x1004: u32(0xFE000EE3)})})]),
]
