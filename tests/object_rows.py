"""Relocatable objects that `link` refuses: a case for each check, in the order of the checks. Most are one good object
with a few other bytes; a line names the offset of what is wrong."""
import struct

from objects import (ALIGN, ALLOCATED, BRANCH, CAPABILITY, COMMON, FINI_ARRAY, FUNCTION, INIT_ARRAY, JAL, LOCAL, NOTYPE,
                     OBJECT, PCREL_HIGH, PCREL_LOW, SECTION, SYMTAB, WORD_64, Made, Relocation, Section, Sparse, Symbol,
                     data, function, initial_calls, label, relocatable, shared, text, thing, u16, u32, u64, up, zeros)
from header_cases import HEADER_CASES, M, U
from row import Holds, Row, Run
from users_case import NOP

good = relocatable(
    [text(u32(0x6F) * 8), data(bytes(64)), zeros(32), initial_calls(bytes(16)), Section(".debug", bytes(8))],
    [label("target", 8), function("f", ".text", 0, 32), thing("d", ".data", 0, 32), thing("c", COMMON, 8, 8),
     Symbol("z", ".bss", 0, 0, NOTYPE, LOCAL), Symbol("high", ".text", 8, 0, NOTYPE, LOCAL)],
    {".text": [Relocation(0, "target", kind=JAL), Relocation(8, "d", kind=PCREL_HIGH),
               Relocation(12, "high", kind=PCREL_LOW)],
     ".data": [Relocation(0, "d"), Relocation(48, "f", kind=WORD_64)]})
at = good.at
SECTIONS = [".text", ".data", ".bss", ".init_array", ".debug", ".rela.text", ".rela.data", ".symtab", ".strtab",
            ".shstrtab"]
NUMBER = {name: number for number, name in enumerate(SECTIONS, 1)}


def header(section: str, field: str) -> int:
    fields = {"name": 0, "type": 4, "flags": 8, "offset": 24, "size": 32, "link": 40, "info": 44, "alignment": 48,
              "entry size": 56}
    return at["header " + section] + fields[field]


def symbol(name: str, field: str) -> int:
    return at["symbol " + name] + {"name": 0, "info": 4, "section": 6, "value": 8, "size": 16}[field]


def record(section: str, number: int, field: str) -> int:
    return at["records " + section] + 24 * number + {"offset": 0, "kind": 8, "symbol": 12, "addend": 16}[field]


def end_of(section: str) -> int:
    return at["contents " + section] + struct.unpack_from("<Q", good, header(section, "size"))[0]


def info(kind: int, binding: int = 1) -> bytes:
    return bytes([binding << 4 | kind])


HEADER = {kind: at["header " + kind] for kind in SECTIONS}
SYMBOL = {name: at["symbol " + name] for name in ("target", "f", "d", "c", "z", "high")}
TEXT, DATA = at["records .text"], at["records .data"]
LONG = 1 << 26

# name, the changed bytes, the class of the refusal, its text and its offset
CASES: list[tuple[str, dict[int, bytes], str, str, int]] = [
    *HEADER_CASES,
    ("the version stands before the type", {20: u32(2), 16: u16(2)}, M, "file version", 20),
    ("a program at a fixed address", {16: u16(2)}, U, "e_type", 16),
    ("no flag of the profile", {48: u32(0)}, U, "pure-capability flags", 48),
    ("one flag of two", {48: u32(0x20000)}, U, "pure-capability flags", 48),

    ("no section", {60: u16(0)}, M, "section header table", 40),
    ("short section headers", {58: u16(40)}, M, "section header table", 40),
    ("section headers that pass the end", {40: u64(len(good) - 64)}, M, "section header table", 40),
    ("section headers that pass the last address", {40: u64(2**64 - 64)}, M, "section header table", 40),
    ("no section of names", {62: u16(11)}, M, "section header table", 40),
    ("section names that are no strings", {header(".shstrtab", "type"): u32(1)}, M, "section names",
     HEADER[".shstrtab"]),
    ("section names without an end", {end_of(".shstrtab") - 1: b"x"}, M, "section names", HEADER[".shstrtab"]),

    ("relocations without addends", {header(".debug", "type"): u32(9)}, U, "section type", HEADER[".debug"]),
    ("a group", {header(".debug", "type"): u32(17)}, U, "section type", HEADER[".debug"]),
    ("more section numbers", {header(".debug", "type"): u32(18)}, U, "section type", HEADER[".debug"]),
    ("calls before the initial ones", {header(".init_array", "type"): u32(16)}, U, "section type",
     HEADER[".init_array"]),
    ("symbols that are loaded", {header(".data", "type"): u32(11)}, U, "section type", HEADER[".data"]),
    ("a dynamic table that is loaded", {header(".data", "type"): u32(6)}, U, "section type", HEADER[".data"]),
    ("short relocations that are loaded", {header(".data", "type"): u32(19)}, U, "section type", HEADER[".data"]),
    ("the type stands before the name", {header(".data", "type"): u32(9), header(".data", "name"): u32(0x1000)}, U,
     "section type", HEADER[".data"]),
    ("a section's name outside the names", {header(".data", "name"): u32(0x1000)}, M, "section names", HEADER[".data"]),
    ("a thread's own data", {header(".data", "flags"): u64(0x403)}, U, "section flags", HEADER[".data"]),
    ("compressed data", {header(".data", "flags"): u64(0x803)}, U, "section flags", HEADER[".data"]),
    ("writable code", {header(".text", "flags"): u64(7)}, U, "section flags", HEADER[".text"]),
    ("zeros that can't be written", {header(".bss", "flags"): u64(2)}, U, "section flags", HEADER[".bss"]),
    ("initial calls that can't be written", {header(".init_array", "flags"): u64(2)}, U, "section flags",
     HEADER[".init_array"]),
    ("final calls that can't be written",
     {header(".init_array", "type"): u32(FINI_ARRAY), header(".init_array", "flags"): u64(2)}, U, "section flags",
     HEADER[".init_array"]),
    ("a section that passes the file's end", {header(".debug", "offset"): u64(len(good))}, M, "section range",
     HEADER[".debug"]),
    ("a section that passes the last address", {header(".debug", "offset"): u64(2**64 - 4)}, M, "section range",
     HEADER[".debug"]),
    ("an alignment of 3", {header(".data", "alignment"): u64(3)}, M, "section alignment", HEADER[".data"]),

    ("symbols of another size", {header(".symtab", "entry size"): u64(16)}, M, "symbol table", HEADER[".symtab"]),
    ("half a symbol", {header(".symtab", "size"): u64(36)}, M, "symbol table", HEADER[".symtab"]),
    ("symbols whose names are no strings", {header(".symtab", "link"): u32(NUMBER[".text"])}, M, "symbol table",
     HEADER[".symtab"]),
    ("two symbol tables",
     {header(".strtab", "type"): u32(SYMTAB), header(".symtab", "link"): u32(NUMBER[".shstrtab"])}, M, "symbol table",
     HEADER[".strtab"]),

    ("a symbol's name outside the names", {symbol("f", "name"): u32(0x1000)}, M, "symbol name", SYMBOL["f"]),
    ("a global symbol without a name", {symbol("f", "name"): u32(0)}, M, "symbol name", SYMBOL["f"]),
    ("a name with a byte that is no text", {at["contents .strtab"] + 8: b"\x7f"}, M, "symbol name", SYMBOL["f"]),
    ("a thread's own symbol", {symbol("d", "info"): info(6)}, U, "symbol type", SYMBOL["d"]),
    ("an unknown binding", {symbol("d", "info"): info(OBJECT, 3)}, U, "symbol binding", SYMBOL["d"]),
    ("a section number that stands elsewhere", {symbol("d", "section"): u16(0xFFFF)}, U, "symbol section", SYMBOL["d"]),
    ("a section that isn't there", {symbol("d", "section"): u16(11)}, M, "symbol place", SYMBOL["d"]),
    ("a symbol that passes its section's end", {symbol("d", "value"): u64(33)}, M, "symbol place", SYMBOL["d"]),
    ("a symbol that passes the last address", {symbol("d", "value"): u64(-16)}, M, "symbol place", SYMBOL["d"]),
    ("a weak common symbol", {symbol("c", "info"): info(OBJECT, 2)}, M, "common symbol", SYMBOL["c"]),
    ("a common symbol at multiples of 12", {symbol("c", "value"): u64(12)}, M, "common symbol", SYMBOL["c"]),
    ("a common symbol at multiples of 0", {symbol("c", "value"): u64(0)}, M, "common symbol", SYMBOL["c"]),
    ("a common symbol at multiples of 131072", {symbol("c", "value"): u64(1 << 17)}, M, "common symbol", SYMBOL["c"]),
    ("a function in data", {symbol("d", "info"): info(FUNCTION)}, U, "symbol place", SYMBOL["d"]),
    ("data in code", {symbol("f", "info"): info(OBJECT)}, U, "symbol place", SYMBOL["f"]),
    ("data among the initial calls",
     {symbol("d", "section"): u16(NUMBER[".init_array"]), symbol("d", "size"): u64(16)}, U, "symbol place",
     SYMBOL["d"]),
    ("bytes with a size among the initial calls",
     {symbol("d", "section"): u16(NUMBER[".init_array"]), symbol("d", "size"): u64(16),
      symbol("d", "info"): info(NOTYPE)}, U, "symbol place", SYMBOL["d"]),
    ("a global symbol in a section that isn't loaded",
     {symbol("d", "section"): u16(NUMBER[".debug"]), symbol("d", "size"): u64(8)}, U, "symbol place", SYMBOL["d"]),

    ("relocations of no section", {header(".rela.text", "info"): u32(0)}, M, "relocation section",
     HEADER[".rela.text"]),
    ("relocations of a section that isn't there", {header(".rela.text", "info"): u32(11)}, M, "relocation section",
     HEADER[".rela.text"]),
    ("relocations of another size", {header(".rela.data", "entry size"): u64(16)}, M, "relocation section",
     HEADER[".rela.data"]),
    ("half a relocation", {header(".rela.data", "size"): u64(36)}, M, "relocation section", HEADER[".rela.data"]),
    ("relocations with other symbols", {header(".rela.data", "link"): u32(NUMBER[".strtab"])}, M, "relocation section",
     HEADER[".rela.data"]),
    ("two relocation sections of one section", {header(".rela.data", "info"): u32(NUMBER[".text"])}, M,
     "relocation section", HEADER[".rela.data"]),
    ("a relocation by a symbol that isn't there", {record(".data", 0, "symbol"): u32(7)}, M, "relocation symbol", DATA),

    ("instructions that a linker is to shorten", {record(".text", 0, "kind"): u32(ALIGN)}, U, "relocation kind", TEXT),
    ("a capability in code", {record(".text", 0, "kind"): u32(CAPABILITY)}, U, "relocation kind", TEXT),
    ("a jump in data", {record(".data", 0, "kind"): u32(JAL)}, U, "relocation kind", DATA),
    ("a jump to nothing", {record(".text", 0, "symbol"): u32(0)}, U, "relocation kind", TEXT),
    ("the kind stands before the place",
     {record(".text", 0, "kind"): u32(CAPABILITY), record(".text", 0, "offset"): u64(30)}, U, "relocation kind", TEXT),
    ("a field across the ends of two symbols", {record(".data", 0, "offset"): u64(24)}, M, "relocation offset", DATA),
    ("a field that passes the section's end", {record(".text", 0, "offset"): u64(30)}, M, "relocation offset", TEXT),
    ("a field that passes the last address", {record(".text", 0, "offset"): u64(-2)}, M, "relocation offset", TEXT),
    ("two words in one slot", {record(".data", 1, "offset"): u64(8)}, M, "relocation slot", DATA + 24),
    ("an addend behind the symbol's end", {record(".data", 0, "addend"): u64(33)}, M, "addend", DATA),
    ("an addend before the symbol", {record(".data", 0, "addend"): u64(-1)}, M, "addend", DATA),
    ("an addend to a function", {record(".data", 0, "addend"): u64(4), record(".data", 0, "symbol"): u32(2)}, M,
     "addend", DATA),
    ("an addend to a low part", {record(".text", 2, "addend"): u64(4)}, M, "addend", TEXT + 48),
    ("a capability that isn't at a multiple of 16", {record(".data", 0, "offset"): u64(8)}, M, "capability alignment",
     DATA),
    ("a jump to an odd place", {record(".text", 0, "addend"): u64(1)}, M, "branch range", TEXT),
    ("a low part whose label has no high part", {symbol("high", "value"): u64(4)}, M, "no partner", TEXT + 48),
    ("a low part whose label is in another section", {symbol("high", "section"): u16(NUMBER[".data"])}, M, "no partner",
     TEXT + 48),
]

# name, the changed bytes, the limit
LIMITS: list[tuple[str, dict[int, bytes], str]] = [
    ("a section at multiples of 131072", {header(".data", "alignment"): u64(1 << 17)}, "section alignment"),
    ("zeros of more than 2^26 bytes", {header(".bss", "size"): u64(LONG + 1)}, "section size"),
    ("a common symbol of more than 2^26 bytes", {symbol("c", "size"): u64(LONG + 1)}, "section size"),
]


def refused(shows: str, files: dict[str, bytes | Sparse], status: int, line: str,
            words: str = "link -o out o.o") -> Row:
    return Row("link: " + shows, files, [Run(words, status, err=line)])


def first_definition(symbols_at: int | None = None, before: list[Symbol] = ()) -> Made:
    return relocatable([text(NOP)], [*before, function("f", ".text", 0, 4)], symbols_at=symbols_at)


priority = relocatable([Section(".init_array.5", bytes(16), ALLOCATED | 1, 16, INIT_ARRAY)])
overlapping = relocatable([data(bytes(32))], [thing("first", ".data", 0, 16), thing("second", ".data", 8, 16)])
later_overlap = relocatable(
    [data(bytes(64)), data(bytes(64), ".data.other")],
    [thing("a", ".data.other", 0, 16), thing("b", ".data", 0, 16), thing("c", ".data", 8, 16),
     thing("d", ".data.other", 8, 16)])
far_branch = relocatable([text(u32(0x63).ljust(4100, b"\0"))], [label("far", 4096)],
                         {".text": [Relocation(0, "far", kind=BRANCH)]})
alone = relocatable([text(bytes(8))], [label("nothing", 0)], {".text": [Relocation(4, "nothing", kind=PCREL_LOW)]})
left_to_load = relocatable([text(bytes(8)), data(bytes(16))], [thing("d", ".data", 0, 16)],
                           {".text": [Relocation(0, "d", kind=PCREL_HIGH)]})
by_section = relocatable([text(NOP), data(bytes(16))], [Symbol("", ".text", 0, 0, SECTION, LOCAL)],
                         {".data": [Relocation(0, 1)]})
of_dropped = relocatable([data(bytes(16)), Section(".debug", bytes(8))], [Symbol("l", ".debug", 0, 0, NOTYPE, LOCAL)],
                         {".data": [Relocation(0, "l")]})
long_name = relocatable([], [Symbol("n" * 256)])
asking = relocatable([data(bytes(16))], [Symbol("gone")], {".data": [Relocation(0, "gone")]})


def too_many(table: str) -> Sparse:
    """An object with one record more in this table than there may be, all of them zeros."""
    made = relocatable([data(bytes(16))], [], {".data": []})
    start, size = up(len(made), 4096), 24 * ((1 << 20) + 1)
    at_header = made.at["header " + table]
    return Sparse(made.but({at_header + 24: u64(start), at_header + 32: u64(size)}), start + size)


ROWS = [
    *(refused(name, {"o.o": good.but(changes)}, 4 if kind == M else 5, f"o.o: {kind} {line} at {offset:#x}")
      for name, changes, kind, line, offset in CASES),
    *(refused(name, {"o.o": good.but(changes)}, 9, f"limit {line}") for name, changes, line in LIMITS),
    Row("link: the object of these cases is good", {"o.o": good}, [Run("link -o out o.o", created={"out": Holds()})]),

    refused("an empty file", {"o.o": b""}, 4, "o.o: malformed file header at 0x0"),
    refused("a file of 63 bytes", {"o.o": good[:63]}, 4, "o.o: malformed file header at 0x3f"),
    refused("initial calls with a priority", {"o.o": priority}, 5,
            f"o.o: unsupported section flags at {priority.at['header .init_array.5']:#x}"),
    refused("a symbol's name of 256 bytes", {"o.o": long_name}, 9, "limit name"),
    refused("more than 2^20 symbols", {"o.o": too_many(".symtab")}, 9, "limit symbols"),
    refused("more than 2^20 relocations", {"o.o": too_many(".rela.data")}, 9, "limit relocations"),
    refused("an object of more than 2^26 bytes", {"o.o": Sparse(good, LONG + 1)}, 9, "limit file size"),
    refused("inputs of more than 2^27 bytes",
            {"o.o": Sparse(good, LONG), "p.o": Sparse(good, LONG), "q.o": b"x"}, 9, "limit input size",
            "link -o out o.o p.o q.o"),
    Row("link: zeros that end at 2^26", {"o.o": relocatable([zeros(LONG - 0x10000)])}, [
        Run("link -o out o.o", created={"out": Holds(length=0x2000)})]),
    refused("zeros that would end behind 2^26", {"o.o": relocatable([zeros(LONG - 0x10000 + 1)])}, 8,
            "out: full, asked 0x4020000"),

    refused("one name defined by two objects",
            {"a.o": first_definition(), "b.o": first_definition(0x100, [function("g", ".text", 0, 0)])}, 4,
            "b.o: malformed duplicate definition at 0x130", "link -o out a.o b.o"),
    refused("two symbols that overlap", {"o.o": overlapping}, 4,
            f"o.o: malformed symbol overlap at {overlapping.at['symbol second']:#x}"),
    refused("of two overlaps the one whose later symbol stands first", {"o.o": later_overlap}, 4,
            f"o.o: malformed symbol overlap at {later_overlap.at['symbol c']:#x}"),
    refused("a branch that is too far by two bytes", {"o.o": far_branch}, 4,
            f"o.o: malformed branch range at {far_branch.at['records .text']:#x}"),
    refused("a low part without a high part", {"o.o": alone}, 4,
            f"o.o: malformed no partner at {alone.at['records .text']:#x}"),
    refused("a distance to what a library may define anew", {"o.o": left_to_load}, 5,
            f"o.o: unsupported relocation kind at {left_to_load.at['records .text']:#x}",
            "link -o out --shared out o.o"),
    refused("a capability to a section of code", {"o.o": by_section}, 5,
            f"o.o: unsupported relocation kind at {by_section.at['records .data']:#x}"),
    refused("a capability to a section that isn't loaded", {"o.o": of_dropped}, 5,
            f"o.o: unsupported relocation kind at {of_dropped.at['records .data']:#x}"),
    refused("a name that no input defines", {"o.o": asking}, 6, "o.o: unresolved gone"),
    refused("a shared object without hash buckets", {"o.o": good, "n.so": shared(words=[0, 1, 0])}, 4,
            f"n.so: malformed hash table at {shared().at['dynamic']:#x}", "link -o out o.o n.so"),
    refused("the second of two files isn't there", {"o.o": good}, 3, "p.o: no such file", "link -o out o.o p.o"),
]
