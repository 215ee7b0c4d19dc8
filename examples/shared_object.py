"""Writes shared objects of the pure-capability profile for 64-bit RISC-V, for examples and measurements.

It shares nothing with the program: it lays a file out by the System V gABI (ELF-64, DT_HASH) in the plainest way, four
segments one behind the other: tables, code, what is read-only once it is relocated, data.

A place is a pair of the part in which it stands, "text" or "data", and the offset there."""
import sys
from dataclasses import dataclass, field, replace
from pathlib import Path

sys.path.insert(0, str(Path(__file__).resolve().parent.parent / "tools"))
from elf import (CAPABILITY, DYNAMIC, ENTRIES, ENTRIES_SIZE, FUNCTION, FUNCTION_ENTRY, GLOBAL, GNU_HASH, HASH, LOAD,
                 NEEDED, NOTYPE, NULL_TAG, OBJECT, READ_ONLY_ENTRY, RELOCATION, RELOCATIONS, RELOCATIONS_SIZE,
                 RELOCATION_SIZE, RELRO, SHARED, SONAME, STRINGS, STRINGS_SIZE, SYMBOL, SYMBOLS, SYMBOL_SIZE, WEAK,
                 WRITABLE_ENTRY, Strings, file_header, gnu_hash, gnu_words, hash_words, program_header, tag_bytes,
                 u32, u64, up)  # noqa: E402, F401

PAGE = 4096
READ, CODE, WRITE = 4, 5, 6

Place = tuple[str, int]


@dataclass
class Symbol:
    """A symbol; one without a place is undefined."""
    name: str
    place: Place | None = None
    size: int = 0
    kind: int = OBJECT
    binding: int = GLOBAL


@dataclass
class Entry:
    """An entry of __cap_relocs: a capability to a part of this object."""
    slot: Place
    target: Place
    offset: int
    size: int
    permissions: int = WRITABLE_ENTRY


@dataclass
class Relocation:
    """A capability to what the symbol of this index means (the null symbol has index 0)."""
    slot: Place
    symbol: int
    addend: int = 0
    kind: int = CAPABILITY


@dataclass
class SharedObject:
    """An object; its table of names is DT_HASH alone or DT_GNU_HASH alone, with as many buckets as linkers make, or as
    it is told."""
    text: bytes = b""
    data: bytes = b""
    symbols: list[Symbol] = field(default_factory=list)
    entries: list[Entry] = field(default_factory=list)
    relocations: list[Relocation] = field(default_factory=list)
    needed: list[str] = field(default_factory=list)
    soname: str | None = None
    gnu: bool = False
    buckets: int | None = None


def in_buckets(o: SharedObject) -> tuple[SharedObject, list[int]]:
    """The same with its symbols in the order of DT_GNU_HASH, undefined ones first, and the words of that table."""
    hashes = [gnu_hash(s.name.encode()) for s in o.symbols]
    undefined = [i for i, s in enumerate(o.symbols) if s.place is None]
    defined = [i for i, s in enumerate(o.symbols) if s.place is not None]
    count = o.buckets or max(1, len(defined) // 4)
    defined.sort(key=lambda i: hashes[i] % count)
    order = undefined + defined
    numbers = {0: 0} | {old + 1: new for new, old in enumerate(order, 1)}
    moved = replace(o, symbols=[o.symbols[i] for i in order],
                    relocations=[replace(r, symbol=numbers[r.symbol]) for r in o.relocations])
    return moved, gnu_words([hashes[i] for i in defined], len(undefined) + 1, count)


def written(o: SharedObject) -> bytes:
    """The bytes of the file. The entry point is 0: there is nothing to run."""
    if o.gnu:
        o, words = in_buckets(o)
    else:
        words = hash_words([s.name.encode() for s in o.symbols], o.buckets)
    strings = Strings()
    names = dict.fromkeys([*(s.name for s in o.symbols), o.soname or "", *o.needed])
    places = {name: strings.place(name) for name in names}

    symbols_at = 64 + 6 * 56
    relocations_at = symbols_at + 24 * (len(o.symbols) + 1)
    entries_at = relocations_at + 24 * len(o.relocations)
    hash_at = entries_at + 40 * len(o.entries)
    strings_at = hash_at + 4 * len(words)
    tables_end = strings_at + len(strings.contents)
    text_at = up(tables_end, PAGE)
    dynamic_at = up(text_at + len(o.text), PAGE)

    dynamic = [(NEEDED, places[name]) for name in o.needed]
    dynamic += [(SONAME, places[o.soname])] if o.soname else []
    dynamic += [(GNU_HASH if o.gnu else HASH, hash_at), (STRINGS, strings_at), (SYMBOLS, symbols_at),
                (STRINGS_SIZE, len(strings.contents)), (SYMBOL_SIZE, 24)]
    if o.relocations:
        dynamic += [(RELOCATIONS, relocations_at), (RELOCATIONS_SIZE, 24 * len(o.relocations)), (RELOCATION_SIZE, 24)]
    if o.entries:
        dynamic += [(ENTRIES, entries_at), (ENTRIES_SIZE, 40 * len(o.entries))]
    dynamic += [(NULL_TAG, 0)]
    dynamic_size = 16 * len(dynamic)
    data_at = up(dynamic_at + dynamic_size, PAGE)
    starts = {"text": text_at, "data": data_at}

    def address(place: Place) -> int:
        return starts[place[0]] + place[1]

    parts = [(LOAD, READ, 0, tables_end, PAGE), (LOAD, CODE, text_at, len(o.text), PAGE),
             (LOAD, WRITE, dynamic_at, data_at - dynamic_at, PAGE), (LOAD, WRITE, data_at, len(o.data), PAGE),
             (DYNAMIC, WRITE, dynamic_at, dynamic_size, 16), (RELRO, READ, dynamic_at, data_at - dynamic_at, 1)]
    headers = b"".join(program_header(kind, flags, at, size, size, align) for kind, flags, at, size, align in parts)
    symbols = bytes(24) + b"".join(
        SYMBOL.pack(places[s.name], s.binding << 4 | s.kind, 0, 1 if s.place else 0, address(s.place) if s.place else 0,
                    s.size) for s in o.symbols)
    relocations = b"".join(RELOCATION.pack(address(r.slot), r.kind, r.symbol, r.addend) for r in o.relocations)
    entries = b"".join(u64(address(e.slot), address(e.target), e.offset, e.size, e.permissions) for e in o.entries)

    out = bytearray(data_at)
    for at, part in [(0, file_header(SHARED, 6, 0, 0) + headers), (symbols_at, symbols + relocations + entries),
                     (hash_at, u32(*words) + strings.contents), (text_at, o.text), (dynamic_at, tag_bytes(dynamic))]:
        out[at:at + len(part)] = part
    return bytes(out) + o.data
