"""A program of two objects with the library that it needs and one that it opens: each file that the program writes, in
full, from the objects to the printed image.

The library has a function; the program calls it by a stub, and has a table of two capabilities, to a text and to a
common symbol; the library that is opened counts in that symbol."""
import re

from objects import (ENTRIES, ENTRIES_SIZE, HASH, NEEDED, RELOCATIONS, RELOCATIONS_SIZE, RELOCATION_SIZE, SONAME,
                     STRINGS, STRINGS_SIZE, SYMBOLS, SYMBOL_SIZE, COMMON, CALL, CAPABILITY, DYNAMIC, FUNCTION, GLOBAL,
                     LOAD, LOCAL, OBJECT, PCREL_LOW, READ, READ_CODE, READ_WRITE, RELRO, TABLE_HIGH, Mapped,
                     Relocation, Section, Symbol, Word, data, file_header, function, hash_words, image, label, laid,
                     program_header, relocatable, symbol_bytes, text, thing, u32, u64, zeros)
from row import Row, Run

NOP = u32(0x13)
NO_SYMBOL = bytes(24)


def exported(name_at: int, address: int, size: int, kind: int = OBJECT, binding: int = GLOBAL) -> bytes:
    return symbol_bytes(name_at, Symbol("", 1, address, size, kind, binding), 1)


def asked(name_at: int, binding: int = GLOBAL) -> bytes:
    return symbol_bytes(name_at, Symbol("", binding=binding), 0)


def linked(read_only: int, code: tuple[int, int], relro: tuple[int, int], written: tuple[int, int, int],
           dynamic: dict[int, int], parts: dict[int, bytes], entry: int = 0) -> bytes:
    """A linked file: the end of what is only read; where code begins and ends; where the dynamic table begins and what
    is read-only after relocation ends; where data begins, ends in the file, and ends. `parts` has what stands there
    beside the headers and the dynamic table; all else is zeros."""

    def header(kind: int, flags: int, start: int, end: int, alignment: int = 4096) -> bytes:
        return program_header(kind, flags, start, end - start, end - start, alignment)

    table = b"".join(u64(tag, value) for tag, value in dynamic.items()) + bytes(16)
    start, file_end, end = written
    headers = [header(LOAD, READ, 0, read_only), header(LOAD, READ_CODE, *code), header(LOAD, READ_WRITE, *relro),
               program_header(LOAD, READ_WRITE, start, file_end - start, end - start, 4096),
               header(DYNAMIC, READ_WRITE, relro[0], relro[0] + len(table), 16), header(RELRO, READ, *relro, 1)]
    return laid(file_end, {0: file_header(3, 6, 0, 0), 24: u64(entry), 64: b"".join(headers), relro[0]: table} | parts)


h_o = relocatable([text(NOP)], [function("helper", ".text", 0, 4)])
p_o = relocatable([data(bytes(16))], [thing("pc", ".data", 0, 16), Symbol("count")],
                  {".data": [Relocation(0, "count")]})
a_o = relocatable(
    [text(NOP * 8), Section(".rodata.str", b"hello\0", flags=2), data(bytes(32))],
    [Symbol(".L.str", ".rodata.str", 0, 6, OBJECT, LOCAL), label(".Lhigh", 0), function("_start", ".text", 0, 32),
     thing("table", ".data", 0, 32), thing("table_alias", ".data", 0, 32), thing("count", COMMON, 4, 4),
     Symbol("helper")],
    {".text": [Relocation(0, "table", kind=TABLE_HIGH), Relocation(4, ".Lhigh", kind=PCREL_LOW),
               Relocation(8, "helper", kind=CALL)],
     ".data": [Relocation(0, ".L.str"), Relocation(16, "count")]})
b_o = relocatable([zeros(5001)], [thing("count", COMMON, 8, 8), thing("buffer", ".bss", 0, 5001)])
OBJECTS = {"h.o": h_o, "p.o": p_o, "a.o": a_o, "b.o": b_o, "lib/": b""}

libh = linked(
    0x1E4, (0x1000, 0x1004), (0x2000, 0x3000), (0x3000, 0x3000, 0x3000),
    {SONAME: 8, HASH: 0x1C0, STRINGS: 0x1D4, SYMBOLS: 0x190, STRINGS_SIZE: 16, SYMBOL_SIZE: 24},
    {0x190: NO_SYMBOL + exported(1, 0x1000, 4, FUNCTION),
     0x1C0: u32(1, 2, 1, 0, 0),
     0x1D4: b"\0helper\0libh.so\0",
     0x1000: NOP})

libp = linked(
    0x21A, (0x1000, 0x1000), (0x1000, 0x2000), (0x2000, 0x2010, 0x2010),
    {SONAME: 10, HASH: 0x1F0, STRINGS: 0x208, SYMBOLS: 0x190, STRINGS_SIZE: 18, SYMBOL_SIZE: 24, RELOCATIONS: 0x1D8,
     RELOCATIONS_SIZE: 24, RELOCATION_SIZE: 24},
    {0x190: NO_SYMBOL + exported(1, 0x2000, 16) + asked(4),
     0x1D8: u64(0x2000, 2 << 32 | CAPABILITY, 0),
     0x1F0: u32(1, 3, 2, 0, 0, 1),
     0x208: b"\0pc\0count\0libp.so\0"})

app = linked(
    0x334, (0x1000, 0x1030), (0x2000, 0x3000), (0x3000, 0x3020, 0x43B8),
    {NEEDED: 46, HASH: 0x2C8, STRINGS: 0x2F8, SYMBOLS: 0x190, STRINGS_SIZE: 54, SYMBOL_SIZE: 24, RELOCATIONS: 0x238,
     RELOCATIONS_SIZE: 24, RELOCATION_SIZE: 24, ENTRIES: 0x250, ENTRIES_SIZE: 120},
    {0x190: NO_SYMBOL + exported(1, 0x1010, 32, FUNCTION) + exported(8, 0x3000, 32) + exported(14, 0x3000, 32)
     + exported(26, 0x43B0, 8) + asked(32) + exported(39, 0x3020, 5008),
     0x238: u64(0x20D0, 5 << 32 | CAPABILITY, 0),
     0x250: u64(0x20C0, 0x3000, 0, 32, 0) + u64(0x3000, 0x32E, 0, 6, 1 << 62) + u64(0x3010, 0x43B0, 0, 8, 0),
     0x2C8: u32(*hash_words([b"_start", b"table", b"table_alias", b"count", b"helper", b"buffer"])),
     0x2F8: b"\0_start\0table\0table_alias\0count\0helper\0buffer\0libh.so\0",
     0x32E: b"hello\0",
     0x1000: u32(0x00001397, 0x0D03A38F, 0xFEC3805B, 0x00000013),
     0x1010: u32(0x00001013, 0x0B000013, 0x00000013, 0xFE800013) + NOP * 4},
    entry=0x1010)

MAPPED = [
    Mapped(0x40000000, "app", app.ljust(0x5000, b"\0"), [
        Word(0x400020C0, 0x40003000, 0x007D00000409B004), Word(0x40003000, 0x4000032E, 0x0015000004CC832A),
        Word(0x40003010, 0x400043B0, 0x007D000004EF83B4),
        Word(0x400020D0, 0x40006000, 0x001720000801A805, 1, "helper")]),
    Mapped(0x40005000, "libh.so", libh, []),
    Mapped(0x40008000, "libp.so", libp.ljust(0x3000, b"\0"), [
        Word(0x4000A000, 0x400043B0, 0x007D000004EF83B4, 0, "count")])]
img = image(MAPPED)

LOADING = "load -o img -L lib app open:libp.so"
FILES = {"app": app, "lib/libh.so": libh, "lib/libp.so": libp}
REPORT = """\
object 0x0000000040000000 0x0000000000005000 app
object 0x0000000040005000 0x0000000000003000 libh.so
object 0x0000000040008000 0x0000000000003000 libp.so
cap 0x00000000400020c0 base 0x0000000040003000 top 0x00000000040003020 cursor 0x0000000040003000 perms 007d flag 0 unsealed owner 0 symbol -
cap 0x00000000400020d0 base 0x0000000040005000 top 0x00000000040008000 cursor 0x0000000040006000 perms 0017 flag 1 sentry owner 1 symbol helper
cap 0x0000000040003000 base 0x000000004000032e top 0x00000000040000334 cursor 0x000000004000032e perms 0015 flag 0 unsealed owner 0 symbol -
cap 0x0000000040003010 base 0x00000000400043b0 top 0x000000000400043b8 cursor 0x00000000400043b0 perms 007d flag 0 unsealed owner 0 symbol -
cap 0x000000004000a000 base 0x00000000400043b0 top 0x000000000400043b8 cursor 0x00000000400043b0 perms 007d flag 0 unsealed owner 0 symbol count
objects 3 words 5
"""

assert (len(libh), len(libp), len(app), len(img)) == (0x3000, 0x2010, 0x3020, 45578)
assert {i: byte for i, byte in enumerate(img[img.at["tags app"]:][:0x5000 // 128]) if byte} == {0x41: 0x30, 0x60: 0x03}

ROWS = [
    Row("objects become two libraries and a program, which is loaded with one library opened, and shown", OBJECTS, [
        Run("link -o lib/libh.so --shared libh.so h.o", created={"lib/libh.so": libh}),
        Run("link -o lib/libp.so --shared libp.so p.o", created={"lib/libp.so": libp}),
        Run("link -o app a.o b.o lib/libh.so", created={"app": app}),
        Run(LOADING, created={"img": img}),
        Run("show img", out=REPORT)]),
    Row("an image of version 1 is shown without owners and names", {"img": image(MAPPED, version=1)}, [
        Run("show img", out=re.sub(" owner .*", "", REPORT))]),
]
