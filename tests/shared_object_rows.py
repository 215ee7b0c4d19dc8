"""Shared objects that `load` refuses: a case for each check, in the order of the checks. Each is one good object with a
few other bytes; a line names the offset of what is wrong."""
from objects import (FINI, FINI_SIZE, INIT, INIT_SIZE, COMMON, COPY, DYNAMIC, ENTRIES, ENTRIES_SIZE, HASH, JUMP_SLOT,
                     NEEDED, READ, RELOCATIONS, RELOCATIONS_SIZE, RELOCATION_SIZE, RELRO, SONAME, STRINGS, STRINGS_SIZE,
                     SYMBOLS, SYMBOL_SIZE, WEAK, Made, Relocation, Sparse, Symbol, function, program_header, shared,
                     thing, u16, u32, u64)
from header_cases import HEADER_CASES, M, U
from row import Holds, Row, Run

PASSED_OVER = 21
SYMBOLIC = 16
JUMPS, JUMPS_SIZE, JUMPS_KIND = 23, 2, 20
TABLES = {"symbols": 0x300, "hash": 0x400, "names": 0x500, "relocations": 0x600, "entries": 0x700, "dynamic": 0x800}
JUMPS_AT = 0x680


without_jump = shared(
    [thing("a", 1, 0x3000, 32), function("f", 1, 0x1000, 4), Symbol("u", binding=WEAK)],
    [Relocation(0x2000, "a"), Relocation(0x2010, "f")], [(0x2030, 0x3000, 0, 32, 0)], ["n.so"], "m.so",
    more_tags=[(JUMPS, JUMPS_AT), (JUMPS_SIZE, 24), (JUMPS_KIND, 7), (INIT, 0x2010), (INIT_SIZE, 16)],
    more_headers=[program_header(RELRO, READ, 0x2000, 0x800, 0x800, 1)], at=TABLES)
at = without_jump.at
good = Made(without_jump.but({JUMPS_AT: u64(0x2020, 2 << 32 | JUMP_SLOT, 0)}), at)
HEADER = {name: 64 + 56 * number for number, name in enumerate(["read", "code", "written", "dynamic", "relro"])}
A, F = at["symbol a"], at["symbol f"]
DYNAMIC_AT, HASH_AT, FIRST, SECOND, ENTRY = 0x800, 0x400, 0x600, 0x618, 0x700


def header(name: str, field: str) -> int:
    fields = {"type": 0, "flags": 4, "offset": 8, "address": 16, "file size": 32, "size": 40, "alignment": 48}
    return HEADER[name] + fields[field]


def tag(number: int) -> int:
    return at[f"tag {number}"]


def value(number: int) -> int:
    return tag(number) + 8


def without(number: int) -> dict[int, bytes]:
    return {tag(number): u64(PASSED_OVER)}


# name, the changed bytes, the class of the refusal, its text and its offset
CASES: list[tuple[str, dict[int, bytes], str, str, int]] = [
    *HEADER_CASES,
    ("an object that isn't linked", {16: u16(1)}, U, "e_type", 16),
    ("a program at a fixed address", {16: u16(2)}, U, "e_type", 16),
    ("one flag of two", {48: u32(0x10000)}, U, "pure-capability flags", 48),
    ("no program header", {56: u16(0)}, M, "program header table", 32),
    ("program headers of another size", {54: u16(64)}, M, "program header table", 32),
    ("program headers that pass the end", {32: u64(len(good) - 100)}, M, "program header table", 32),

    ("a thread's own data", {header("relro", "type"): u32(7)}, U, "PT_TLS", HEADER["relro"]),
    ("more bytes in the file than in memory", {header("code", "size"): u64(0xFFF)}, M, "segment range", HEADER["code"]),
    ("a segment that passes the file's end",
     {header("written", "offset"): u64(0x3000), header("written", "address"): u64(0x3000)}, M, "segment range",
     HEADER["written"]),
    ("a segment that passes 2^62", {header("written", "size"): u64((1 << 62) - 0x1FFF)}, M, "segment range",
     HEADER["written"]),
    ("a segment at multiples of 12", {header("code", "alignment"): u64(12)}, M, "segment alignment", HEADER["code"]),
    ("a segment at multiples of 2^27", {header("read", "alignment"): u64(1 << 27)}, M, "segment alignment",
     HEADER["read"]),
    ("a segment whose offset and address differ", {header("code", "address"): u64(0x1008)}, M, "segment alignment",
     HEADER["code"]),
    ("a segment before an earlier one", {header("code", "address"): u64(0)}, M, "segment order", HEADER["code"]),
    ("writable code", {header("code", "flags"): u32(7)}, U, "writable code", HEADER["code"]),
    ("segments without memory", {HEADER[name] + 32: bytes(16) for name in ("read", "code", "written")}, M, "PT_LOAD",
     32),
    ("no dynamic table", {header("dynamic", "type"): u32(4)}, M, "PT_DYNAMIC", 32),
    ("two dynamic tables", {header("relro", "type"): u32(DYNAMIC)}, M, "PT_DYNAMIC", HEADER["relro"]),
    ("half an entry of the dynamic table", {header("dynamic", "file size"): u64(0x108)}, M, "PT_DYNAMIC",
     HEADER["dynamic"]),
    ("a dynamic table across two segments", {header("dynamic", "address"): u64(0xFF0)}, M, "PT_DYNAMIC",
     HEADER["dynamic"]),
    ("what can't be written is read-only after relocation", {header("relro", "address"): u64(0x1000)}, M,
     "PT_GNU_RELRO", HEADER["relro"]),

    ("a dynamic table without end", {header("dynamic", "file size"): u64(tag(0) - DYNAMIC_AT)}, M, "dynamic end",
     DYNAMIC_AT),
    *((f"an entry with the tag {number:#x}", {tag(INIT_SIZE): u64(number)}, U, "dynamic tag", tag(INIT_SIZE))
      for number in (17, 22, 32, 36, 0x6FFFFFF0, 0x6FFFFFFC, 0x6FFFFFFE)),
    ("relocations of code", {tag(INIT_SIZE): u64(30, 4)}, U, "dynamic tag", tag(INIT_SIZE)),
    *((f"two entries with the tag {number:#x}", {tag(INIT_SIZE): u64(number)}, M, "repeated dynamic tag",
       tag(INIT_SIZE))
      for number in (HASH, STRINGS, SYMBOLS, RELOCATIONS, RELOCATIONS_SIZE, RELOCATION_SIZE, STRINGS_SIZE, SYMBOL_SIZE,
                     SONAME, JUMPS, JUMPS_SIZE, JUMPS_KIND, INIT, ENTRIES, ENTRIES_SIZE)),
    *((f"two entries with the tag {number:#x}", {tag(INIT): u64(number), tag(INIT_SIZE): u64(number)}, M,
       "repeated dynamic tag", tag(INIT_SIZE)) for number in (SYMBOLIC, FINI, INIT_SIZE, FINI_SIZE)),
    ("no strings", without(STRINGS), M, "string table", DYNAMIC_AT),
    ("no size of the strings", without(STRINGS_SIZE), M, "string table", DYNAMIC_AT),
    ("strings that pass their segment", {value(STRINGS): u64(0xFFF)}, M, "string table", DYNAMIC_AT),
    ("strings that begin otherwise", {0x500: b"x"}, M, "string table", DYNAMIC_AT),
    ("a hash table that passes its segment", {value(HASH): u64(0xFFC)}, M, "hash table", DYNAMIC_AT),
    ("no hash bucket", {HASH_AT: u32(0)}, M, "hash table", DYNAMIC_AT),
    ("no hash chain", {HASH_AT + 4: u32(0)}, M, "hash table", DYNAMIC_AT),
    ("no symbols", without(SYMBOLS), M, "symbol table", DYNAMIC_AT),
    ("symbols of another size", {value(SYMBOL_SIZE): u64(16)}, M, "symbol table", DYNAMIC_AT),
    ("symbols that pass their segment", {value(SYMBOLS): u64(0xFF0)}, M, "symbol table", DYNAMIC_AT),
    ("no size of the relocations", without(RELOCATIONS_SIZE), M, "relocation table", DYNAMIC_AT),
    ("relocations of another size", {value(RELOCATION_SIZE): u64(17)}, M, "relocation table", DYNAMIC_AT),
    ("half a relocation", {value(RELOCATIONS_SIZE): u64(36)}, M, "relocation table", DYNAMIC_AT),
    ("relocations that pass their segment", {value(RELOCATIONS): u64(0x4000)}, M, "relocation table", DYNAMIC_AT),
    ("jump slots of another kind", {value(JUMPS_KIND): u64(17)}, M, "relocation table", DYNAMIC_AT),
    ("half an entry of a capability", {value(ENTRIES_SIZE): u64(60)}, M, "relocation table", DYNAMIC_AT),
    ("a needed name outside the strings", {value(NEEDED): u64(0x100)}, M, "needed or soname", tag(NEEDED)),
    ("an empty needed name", {value(NEEDED): u64(0)}, M, "needed or soname", tag(NEEDED)),
    ("an own name with a byte that is no text", {0x50C: b"\x80"}, M, "needed or soname", tag(SONAME)),
    ("a needed name with a slash", {0x508: b"/"}, M, "needed or soname", tag(NEEDED)),
    ("initial calls without a size", without(INIT_SIZE), M, "array", DYNAMIC_AT),
    ("half an initial call", {value(INIT_SIZE): u64(8)}, M, "array", DYNAMIC_AT),
    ("initial calls in no segment", {value(INIT): u64(0x4000)}, M, "array", DYNAMIC_AT),

    ("a symbol's name outside the strings", {A: u32(0x1000)}, M, "symbol name", A),
    ("a global symbol without a name", {F: u32(0)}, M, "symbol name", F),
    ("an indirect function", {F + 4: b"\x1a"}, U, "symbol type", F),
    ("an unknown binding", {F + 4: b"\x32"}, U, "symbol binding", F),
    ("a common symbol", {A + 6: u16(COMMON)}, U, "symbol section", A),
    ("two definitions of one name", {F: good[A:A + 4]}, M, "duplicate dynamic symbol", F),
    ("a relocation by a symbol that isn't there", {FIRST + 12: u32(4)}, M, "relocation symbol", FIRST),
    ("a jump slot by a symbol that isn't there", {JUMPS_AT + 12: u32(4)}, M, "relocation symbol", JUMPS_AT),
    ("a hash chain that leads outside", {HASH_AT + 8: u32(4)}, M, "hash chain", HASH_AT),
    ("a relocation that copies a definition", {FIRST + 8: u32(COPY)}, U, "relocation kind", FIRST),
    ("a slot in what can't be written", {FIRST: u64(0x800)}, M, "relocation slot", FIRST),
    ("a slot that isn't at a multiple of 16", {FIRST: u64(0x2008)}, M, "relocation slot", FIRST),
    ("a slot of an entry", {FIRST: u64(0x2030)}, M, "relocation slot", FIRST),
    ("a jump slot that has a relocation", {JUMPS_AT: u64(0x2010)}, M, "relocation slot", JUMPS_AT),
    ("a slot that passes the last address", {FIRST: u64(-16)}, M, "relocation slot", FIRST),
    ("a symbol in no segment", {A + 8: u64(0x3FF0)}, M, "symbol interval", FIRST),
    ("a symbol across the end of what is read-only after relocation", {A + 8: u64(0x27F0)}, M, "symbol interval",
     FIRST),
    ("a function that isn't in code", {F + 8: u64(0x2000)}, M, "symbol interval", SECOND),
    ("an addend behind the symbol's end", {FIRST + 16: u64(33)}, M, "addend", FIRST),
    ("an addend before the symbol", {FIRST + 16: u64(-1)}, M, "addend", FIRST),
    ("an addend to a function", {SECOND + 16: u64(4)}, M, "addend", SECOND),
    ("an entry's interval in no segment", {ENTRY + 8: u64(0x3FF0)}, M, "symbol interval", ENTRY),
    ("an entry of a function that isn't in code", {ENTRY + 32: u64(1 << 63)}, M, "symbol interval", ENTRY),
    ("an entry with both bits", {ENTRY + 32: u64(3 << 62)}, M, "capability permissions", ENTRY),
    ("an entry with an unknown bit", {ENTRY + 32: u64(1)}, M, "capability permissions", ENTRY),
    ("an entry that writes to what is read-only after relocation", {ENTRY + 8: u64(0x2100)}, M,
     "capability permissions", ENTRY),
    ("an entry's cursor behind its end", {ENTRY + 16: u64(33)}, M, "addend", ENTRY),
    ("an entry's slot in what can't be written", {ENTRY: u64(0x800)}, M, "relocation slot", ENTRY),
]
LONG = "n" * 256
LIMITS: list[tuple[str, bytes | Sparse, str]] = [
    ("a needed name of 256 bytes", shared(needed=[LONG]), "name"),
    ("an own name of 256 bytes", shared(soname=LONG), "name"),
    ("a symbol's name of 256 bytes", shared([thing(LONG, 1, 0x3000, 8)]), "name"),
    ("more than 2^26 bytes", Sparse(good, (1 << 26) + 1), "file size"),
]

ROWS = [
    Row("load: the object of these cases is good", {"m": good, "n.so": shared()}, [
        Run("load -o i m", created={"i": Holds()})]),
    *(Row("load: " + name, {"m": good.but(changes), "n.so": shared()},
          [Run("load -o i m", 4 if kind == M else 5, err=f"m: {kind} {line} at {offset:#x}")])
      for name, changes, kind, line, offset in CASES),
    *(Row("load: " + name, {"m": contents, "n.so": shared()}, [Run("load -o i m", 9, err=f"limit {line}")])
      for name, contents, line in LIMITS),
]
