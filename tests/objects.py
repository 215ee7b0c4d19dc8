"""Builds shared objects as another linker might write them, and images: byte for byte as it is told. Nothing is checked,
so that a file can be as false as a test needs it. Relocatable objects and all records are those of the tools.

It shares nothing with the program. The formats are the System V gABI (ELF-64) and RISC-V ELF psABI; the relocations to
capabilities, `__cap_relocs` and the image are the project's own."""
import sys
from dataclasses import dataclass
from pathlib import Path

sys.path[:0] = [str(Path(__file__).resolve().parent.parent / folder) for folder in ("tools", "examples")]
from elf import (ABSOLUTE, ALIGN, ALLOCATED, BRANCH, CALL, CAPABILITY, COMMON, COPY, DYNAMIC, ENTRIES, ENTRIES_SIZE,
                 EXECUTABLE, FINI, FINI_ARRAY, FINI_SIZE, FUNCTION, GLOBAL, HASH, HIDDEN, INIT, INIT_ARRAY, INIT_SIZE,
                 JAL, JUMP_SLOT, LOAD, LOCAL, NEEDED, NOBITS, NONE, NOTE, NOTYPE, OBJECT, PCREL_HIGH, PCREL_LOW,
                 PROGBITS, PURE_CAPABILITY, RELA, RELATIVE, RELOCATIONS, RELOCATIONS_SIZE, RELOCATION_SIZE, RELRO,
                 RISC_V, SECTION, SONAME, STRINGS, STRINGS_SIZE, STRTAB, SYMBOLS, SYMBOL_SIZE, SYMTAB, TABLE_HIGH,
                 UNDEFINED, WEAK, WORD_64, WRITABLE, Made, Relocation, Section, Strings, Symbol, data, file_header,
                 function, hash_words, initial_calls, label, program_header, relocatable, relocation_bytes,
                 symbol_bytes, text, thing, u16, u32, u64, up, zeros)  # noqa: E402, F401

READ, READ_CODE, READ_WRITE = 4, 5, 6


@dataclass
class Sparse:
    """A large file: a few bytes, and zeros up to its size."""
    front: bytes
    size: int


def laid(length: int, parts: dict[int, bytes]) -> bytes:
    """Parts at their offsets, with zeros between."""
    return Made(bytes(length), {}).but(parts)


@dataclass
class Segment:
    """A segment that is loaded; its place in the file is its address, and it is all in the file."""
    address: int
    size: int
    flags: int
    file_size: int | None = None
    alignment: int = 4096


THREE_SEGMENTS = (Segment(0, 0x1000, READ), Segment(0x1000, 0x1000, READ_CODE), Segment(0x2000, 0x2000, READ_WRITE))


def shared(symbols: list[Symbol] = (), relocations: list[Relocation] = (), entries: list[tuple[int, ...]] = (),
           needed: list[str] = (), soname: str | None = None, segments: tuple[Segment, ...] = THREE_SEGMENTS,
           words: list[int] | None = None, more_tags: list[tuple[int, int]] = (), more_headers: list[bytes] = (),
           at: dict[str, int] | None = None) -> Made:
    """A shared object whose tables stand in its first segment, behind the headers, each at the next multiple of 8 or
    where `at` has it: `symbols`, `hash`, `names`, `relocations`, `entries`, `dynamic`. An entry of `__cap_relocs` is
    its five numbers; `words` stand in the place of the right hash table. Symbols have addresses as values, and their
    section is a number. The offsets: those of the tables, `symbol NAME`, and `tag N` of the first entry with it."""
    names = Strings()
    table = bytes(24) + b"".join(symbol_bytes(names.place(s.name), s, s.section) for s in symbols)
    tags: list[tuple[int, int | str]] = [(NEEDED, names.place(name)) for name in needed]
    tags += [(SONAME, names.place(soname))] if soname else []
    bodies = {"symbols": table, "hash": u32(*(words or hash_words([s.name.encode() for s in symbols]))),
              "names": names.contents, "relocations": relocation_bytes(relocations, symbols),
              "entries": b"".join(u64(*entry) for entry in entries)}
    tags += [(HASH, "hash"), (STRINGS, "names"), (SYMBOLS, "symbols"), (STRINGS_SIZE, len(names.contents)),
             (SYMBOL_SIZE, 24)]
    if relocations:
        tags += [(RELOCATIONS, "relocations"), (RELOCATIONS_SIZE, 24 * len(relocations)), (RELOCATION_SIZE, 24)]
    if entries:
        tags += [(ENTRIES, "entries"), (ENTRIES_SIZE, 40 * len(entries))]
    tags += [*more_tags, (0, 0)]
    bodies["dynamic"] = bytes(16 * len(tags))

    places: dict[str, int] = {}
    headers = len(segments) + 1 + len(more_headers)
    end = 64 + 56 * headers
    for name, body in bodies.items():
        places[name] = (at or {}).get(name, up(end, 8))
        end = max(end, places[name] + len(body))
    bodies["dynamic"] = b"".join(u64(tag, places[value] if isinstance(value, str) else value) for tag, value in tags)

    head = file_header(3, headers, 0, 0)
    for segment in segments:
        in_file = segment.size if segment.file_size is None else segment.file_size
        head += program_header(LOAD, segment.flags, segment.address, in_file, segment.size, segment.alignment)
        end = max(end, segment.address + in_file)
    size = len(bodies["dynamic"])
    head += program_header(DYNAMIC, READ_WRITE, places["dynamic"], size, size, 8) + b"".join(more_headers)
    parts = {0: head} | {places[name]: body for name, body in bodies.items() if body}
    for number, symbol in enumerate(symbols, 1):
        places["symbol " + symbol.name] = places["symbols"] + 24 * number
    for number, (tag, _) in reversed(list(enumerate(tags))):
        places[f"tag {tag}"] = places["dynamic"] + 16 * number
    return Made(laid(end, parts), places)


@dataclass
class Word:
    """A tagged granule: what it holds, and the object and the name of its definition."""
    granule: int
    address: int
    metadata: int
    owner: int = 0
    name: str = ""


UNSEALED, SENTRY = 0x3FFFF, 0x3FFFE


def metadata(base: int, length: int, permissions: int, kind: int = UNSEALED, flag: int = 0) -> int:
    """The upper half of a word of short bounds, as it stands in memory; its address is within the bounds or at their
    end. The exponent is 0, and the bounds are their lower bits."""
    assert length < 4096
    fields = permissions << 48 | flag << 45 | kind << 27 | (base + length) % 2**12 << 14 | base % 2**14
    return fields ^ 0x00001FFFFC018004


@dataclass
class Mapped:
    """An object of an image. Its words stand in the order of its relocations."""
    base: int
    name: str
    memory: bytes
    words: list[Word]


def image(objects: list[Mapped], version: int = 2) -> Made:
    """An image. The offsets: `record NAME`, `memory NAME`, `tags NAME` and `words NAME` of an object."""
    at: dict[str, int] = {}
    out = bytearray(b"PURECAPI" + u32(version, len(objects)))
    for o in objects:
        at["record " + o.name] = len(out)
        out += u64(o.base, len(o.memory)) + u16(len(o.name)) + o.name.encode()
    for o in objects:
        memory, tags, records = bytearray(o.memory), bytearray(len(o.memory) // 128), b""
        for word in o.words:
            offset = word.granule - o.base
            memory[offset:offset + 16] = u64(word.address, word.metadata)
            tags[offset // 128] |= 1 << offset // 16 % 8
        for word in sorted(o.words, key=lambda word: word.owner):
            records += u64(word.granule) + u16(word.owner) + u16(len(word.name)) + word.name.encode()
        at["memory " + o.name] = len(out)
        at["tags " + o.name] = len(out) + len(memory)
        out += memory + tags
        if version == 2:
            at["words " + o.name] = len(out)
            out += u32(len(o.words)) + records
    return Made(bytes(out), at)
