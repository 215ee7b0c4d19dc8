#!/usr/bin/env python3
"""Tells what stands at a file offset, as a fault line of `purecap` names it.

    where.py FILE OFFSET        OFFSET as the line has it: `0x228`, or decimal

FILE is a relocatable object, a shared object or program, or an image of either version. Told are the header, section,
segment or table; the record and its field; the symbol, the relocation with its kind and target, the capability."""
import argparse
import struct
import sys
from collections.abc import Iterator
from dataclasses import dataclass
from pathlib import Path

import elf
import image
from accepted import at, class_of, name_of, shown, told_of
from elf import Broken, Section, Symbol, kind_name

FILE_FIELDS = [(0, "magic"), (4, "class"), (5, "byte order"), (6, "ident version"), (7, "rest of e_ident"),
               (16, "e_type"), (18, "e_machine"), (20, "e_version"), (24, "e_entry"), (32, "e_phoff"), (40, "e_shoff"),
               (48, "e_flags"), (52, "e_ehsize"), (54, "e_phentsize"), (56, "e_phnum"), (58, "e_shentsize"),
               (60, "e_shnum"), (62, "e_shstrndx")]
SECTION_FIELDS = [(0, "sh_name"), (4, "sh_type"), (8, "sh_flags"), (16, "sh_addr"), (24, "sh_offset"), (32, "sh_size"),
                  (40, "sh_link"), (44, "sh_info"), (48, "sh_addralign"), (56, "sh_entsize")]
SEGMENT_FIELDS = [(0, "p_type"), (4, "p_flags"), (8, "p_offset"), (16, "p_vaddr"), (24, "p_paddr"), (32, "p_filesz"),
                  (40, "p_memsz"), (48, "p_align")]
SYMBOL_FIELDS = [(0, "st_name"), (4, "st_info"), (5, "st_other"), (6, "st_shndx"), (8, "st_value"), (16, "st_size")]
RELOCATION_FIELDS = [(0, "r_offset"), (8, "r_info"), (16, "r_addend")]
ENTRY_FIELDS = [(0, "location"), (8, "object"), (16, "offset"), (24, "size"), (32, "permissions")]
TAG_FIELDS = [(0, "d_tag"), (8, "d_val")]
IMAGE_FIELDS = [(0, "magic"), (8, "version"), (12, "number of objects")]
OBJECT_FIELDS = [(0, "base"), (8, "size"), (16, "length of its name"), (18, "name")]
WORD_FIELDS = [(0, "granule"), (8, "owner"), (10, "length of the name"), (12, "name")]
TAGS = {0: "NULL", 1: "NEEDED", 2: "PLTRELSZ", 4: "HASH", 5: "STRTAB", 6: "SYMTAB", 7: "RELA", 8: "RELASZ",
        9: "RELAENT", 10: "STRSZ", 11: "SYMENT", 14: "SONAME", 16: "SYMBOLIC", 17: "REL", 20: "PLTREL", 22: "TEXTREL",
        23: "JMPREL", 25: "INIT_ARRAY", 26: "FINI_ARRAY", 27: "INIT_ARRAYSZ", 28: "FINI_ARRAYSZ", 30: "FLAGS",
        32: "PREINIT_ARRAY", 36: "RELR", 0x6FFFFEF5: "GNU_HASH", 0x6FFFFFF0: "VERSYM", 0x6FFFFFFC: "VERDEF",
        0x6FFFFFFE: "VERNEED", 0x7000C000: "__cap_relocs", 0x7000C001: "size of __cap_relocs"}
SEGMENTS = {1: "LOAD", 2: "DYNAMIC", 3: "INTERP", 4: "NOTE", 6: "PHDR", 7: "TLS", 0x6474E550: "GNU_EH_FRAME",
            0x6474E551: "GNU_STACK", 0x6474E552: "GNU_RELRO"}
BINDINGS = {0: "local", 1: "global", 2: "weak"}
KINDS = {0: "label", 1: "data", 2: "function", 3: "section", 4: "file", 5: "common", 6: "thread-local data",
         10: "ifunc"}


def field_at(fields: list[tuple[int, str]], offset: int) -> str:
    return next(name for start, name in reversed(fields) if start <= offset)


def whole_name(strings: bytes, offset: int) -> str:
    """The name of a string table that has a byte at this offset."""
    return shown(elf.text_of(strings, strings.rfind(0, 0, offset) + 1))


def symbol_told(symbol: Symbol, place: str) -> str:
    binding = BINDINGS.get(symbol.binding, f"binding {symbol.binding}")
    visibility = ["", ", internal", ", hidden", ", protected"][symbol.visibility]
    return f"{binding} {KINDS.get(symbol.kind, f'type {symbol.kind}')}{visibility}, {place}, {symbol.size} bytes"


def place_of(symbol: Symbol, sections: list[Section]) -> str:
    if symbol.section == elf.UNDEFINED:
        return "undefined"
    if symbol.section == elf.ABSOLUTE:
        return f"absolute {symbol.value:#x}"
    if symbol.section == elf.COMMON:
        return f"common, alignment {symbol.value}"
    if symbol.section < len(sections):
        return at(sections[symbol.section], symbol.value)
    return f"at {symbol.value:#x}" if not sections else f"in section {symbol.section}, which isn't there"


def covering(symbols: list[Symbol], section: int | None, offset: int) -> Iterator[str]:
    """The symbols that cover an offset of a section, or an address."""
    for symbol in symbols[1:]:
        is_there = symbol.is_placed if section is None else symbol.section == section
        if is_there and symbol.value <= offset < symbol.value + max(symbol.size, 1) and symbol.kind != elf.SECTION:
            yield f"in {shown(symbol.name) or 'a symbol without a name'}+{offset - symbol.value:#x}"


# ---- Relocatable objects

def in_section(o: elf.RelocatableObject, number: int, offset: int) -> Iterator[str]:
    section = o.sections[number]
    start = section.at
    record, inside = divmod(offset - start, 24)
    if section.type == elf.SYMTAB and record < len(o.symbols):
        symbol = o.symbols[record]
        yield f"symbol {record}, {field_at(SYMBOL_FIELDS, inside)}: {name_of(o, symbol)}"
        yield f"  {symbol_told(symbol, place_of(symbol, o.sections))}"
    elif section.type == elf.RELA and section.info < len(o.sections) and record < section.size // 24:
        relocation = elf.read_relocations(section.contents)[record]
        target = o.symbols[relocation.symbol]
        addend = f" + {relocation.addend}" if relocation.addend else ""
        yield (f"relocation {record} of {o.sections[section.info].name}, {field_at(RELOCATION_FIELDS, inside)}: "
               f"{told_of(o, relocation)}{addend}, at {at(o.sections[section.info], relocation.offset)}")
        yield f"  {name_of(o, target)}: {symbol_told(target, place_of(target, o.sections))}"
        yield from (f"  the field is {found}" for found in covering(o.symbols, section.info, relocation.offset))
    elif section.type == elf.STRTAB:
        yield f"section {section.name} (names): '{whole_name(section.contents, offset - start)}'"
    else:
        yield f"{at(section, offset - start)} ({class_of(section)})"
        yield from (f"  {found}" for found in covering(o.symbols, number, offset - start))
        for relocation in o.relocations.get(number, []):
            if 0 <= offset - start - relocation.offset < (16 if relocation.kind == elf.CAPABILITY else 8):
                yield f"  {told_of(o, relocation)} + {relocation.addend}, at {at(section, relocation.offset)}"


def in_relocatable(contents: bytes, header: elf.Header, offset: int) -> Iterator[str]:
    o = elf.read_relocatable(contents)
    for number, place in enumerate(header.sections):
        if place <= offset < place + 64:
            name = o.sections[number].name or "null"
            yield f"section header {number} ({name}), {field_at(SECTION_FIELDS, offset - place)}"
    for number, section in enumerate(o.sections):
        if isinstance(section.contents, bytes) and section.at <= offset < section.at + section.size:
            yield from in_section(o, number, offset)


# ---- Shared objects and programs

@dataclass
class Table:
    """A table of the dynamic section: where it stands in the file."""
    name: str
    at: int
    size: int


class Shared:
    def __init__(self, contents: bytes, header: elf.Header) -> None:
        self.contents = contents
        self.header_places = header.program_headers
        self.headers = [elf.PROGRAM_HEADER.unpack(elf.cut(contents, place, 56, "a program header"))
                        for place in header.program_headers]
        self.tags: list[tuple[int, int]] = []
        self.dynamic_at = 0
        for kind, _, offset, _, _, size, _, _ in self.headers:
            if kind == elf.DYNAMIC:
                self.dynamic_at = offset
                self.tags = list(elf.TAG.iter_unpack(elf.cut(contents, offset, size // 16 * 16, "the dynamic section")))
        first = dict(reversed(self.tags))
        self.tables = []
        for name, tag, size in [("names", elf.STRINGS, first.get(elf.STRINGS_SIZE, 0)),
                                ("relocations", elf.RELOCATIONS, first.get(elf.RELOCATIONS_SIZE, 0)),
                                ("relocations of stubs", elf.PLT_RELOCATIONS, first.get(elf.PLT_SIZE, 0)),
                                ("entries", elf.ENTRIES, first.get(elf.ENTRIES_SIZE, 0))]:
            self.enter(name, first.get(tag), size)
        hash_at = self.file_offset(first.get(elf.HASH))
        count = 0
        if hash_at is not None:
            buckets, count = struct.unpack("<II", elf.cut(contents, hash_at, 8, "the hash table"))
            self.tables.append(Table("hash table", hash_at, 4 * (2 + buckets + count)))
        self.enter("symbols", first.get(elf.SYMBOLS), 24 * count)
        self.symbols = elf.read_symbols(self.body("symbols"), self.body("names"))

    def enter(self, name: str, address: int | None, size: int) -> None:
        place = self.file_offset(address)
        if place is not None:
            self.tables.append(Table(name, place, size))

    def file_offset(self, address: int | None) -> int | None:
        for kind, _, offset, start, _, size, _, _ in self.headers:
            if kind == elf.LOAD and address is not None and start <= address < start + size:
                return offset + address - start
        return None

    def body(self, name: str) -> bytes:
        table = next((t for t in self.tables if t.name == name), None)
        return elf.cut(self.contents, table.at, table.size, f"the table of {name}") if table else b""

    def whole(self, name: str, width: int) -> bytes:
        """The whole records of a table."""
        body = self.body(name)
        return body[:len(body) // width * width]

    def target(self, number: int) -> str:
        return shown(self.symbols[number].name) if 0 < number < len(self.symbols) else "no symbol"

    def explain(self, offset: int) -> Iterator[str]:
        for number, (place, header) in enumerate(zip(self.header_places, self.headers)):
            if place <= offset < place + 56:
                name = SEGMENTS.get(header[0], f"type {header[0]:#x}")
                yield f"program header {number} ({name}), {field_at(SEGMENT_FIELDS, offset - place)}"
        if self.dynamic_at <= offset < self.dynamic_at + 16 * len(self.tags):
            record, inside = divmod(offset - self.dynamic_at, 16)
            tag, value = self.tags[record]
            name = f" ('{shown(elf.text_of(self.body('names'), value))}')" if tag in (elf.NEEDED, elf.SONAME) else ""
            told = TAGS.get(tag, f"tag {tag:#x}")
            yield f"dynamic entry {record}, {field_at(TAG_FIELDS, inside)}: {told} {value:#x}{name}"
        for table in self.tables:
            if table.at <= offset < table.at + table.size:
                yield from self.in_table(table, offset - table.at)
        for kind, flags, place, start, _, size, _, _ in self.headers:
            if kind == elf.LOAD and place <= offset < place + size:
                letters = "".join(letter if flags & bit else "-" for bit, letter in [(4, "r"), (2, "w"), (1, "x")])
                address = start + offset - place
                yield f"address {address:#x}, in a segment {letters}"
                yield from (f"  {found}" for found in covering(self.symbols, None, address))
                yield from (f"  in the slot of {told}" for told in self.slots_at(address))

    def slots_at(self, address: int) -> Iterator[str]:
        for slot, kind, symbol, addend in elf.RELOCATION.iter_unpack(self.whole("relocations", 24)):
            if slot <= address < slot + (8 if kind in (elf.WORD_64, elf.RELATIVE) else 16):
                yield f"{kind_name(kind)} of {self.target(symbol)} + {addend}"
        for location, target, _, size, _ in elf.ENTRY.iter_unpack(self.whole("entries", 40)):
            if location <= address < location + 16:
                yield f"an entry of __cap_relocs, to {target:#x}, {size} bytes"

    def in_table(self, table: Table, offset: int) -> Iterator[str]:
        width = {"symbols": 24, "relocations": 24, "relocations of stubs": 24, "entries": 40}.get(table.name)
        if width is None:
            name = f" '{whole_name(self.body('names'), offset)}'" if table.name == "names" else ""
            yield f"{table.name}, byte {offset}{name}"
            return
        record, inside = divmod(offset, width)
        body = self.whole(table.name, width)[width * record:width * (record + 1)]
        if not body:
            yield f"{table.name}, behind the last whole record"
            return
        if table.name == "symbols":
            symbol = self.symbols[record]
            yield f"symbol {record}, {field_at(SYMBOL_FIELDS, inside)}: {shown(symbol.name) or 'no name'}"
            yield f"  {symbol_told(symbol, place_of(symbol, []))}"
        elif table.name == "entries":
            location, target, into, size, permissions = elf.ENTRY.unpack(body)
            rights = {elf.FUNCTION_ENTRY: "code", elf.READ_ONLY_ENTRY: "read-only data", 0: "writable data"}.get(
                permissions, f"permissions {permissions:#x}")
            yield (f"entry {record} of __cap_relocs, {field_at(ENTRY_FIELDS, inside)}: slot {location:#x}, {rights} at "
                   f"{target:#x}, {size} bytes, cursor {into} bytes behind its base")
            yield from (f"  the target is {found}" for found in covering(self.symbols, None, target))
        else:
            slot, kind, symbol, addend = elf.RELOCATION.unpack(body)
            yield (f"relocation {record}, {field_at(RELOCATION_FIELDS, inside)}: {kind_name(kind)} of "
                   f"{self.target(symbol)} + {addend}, slot {slot:#x}")


# ---- Images

def in_image(contents: bytes, offset: int) -> Iterator[str]:
    front = image.Front(contents)
    front.take(8)
    version, count = front.unpack("<II")
    if offset < 16:
        yield field_at(IMAGE_FIELDS, offset)
    objects = []
    for number in range(count):
        start = front.at
        objects.append((*front.unpack("<QQ"), front.name()))
        if start <= offset < front.at:
            inside = field_at(OBJECT_FIELDS, offset - start)
            base, size, name = objects[-1]
            yield f"record of object {number}, {inside}: {shown(name)}, {size:#x} bytes at {base:#x}"
    words = {word.granule: word for word in image.read_image(contents).words}

    def told(granule: int) -> Iterator[str]:
        word = words.get(granule)
        if word:
            yield (f"  granule {granule:#x}: [{word.base:#x}, {word.top:#x}) {image.rights(word.permissions)} "
                   f"{word.seal}, symbol {word.symbol}")

    for base, size, name in objects:
        inside = offset - front.at
        front.take(size)
        if 0 <= inside < size:
            yield f"memory of {shown(name)}, address {base + inside:#x}"
            yield from told((base + inside) // 16 * 16)
        inside = offset - front.at
        front.take(size // 128)
        if 0 <= inside < size // 128:
            yield f"tags of {shown(name)}, of the granules {base + 128 * inside:#x} to {base + 128 * inside + 112:#x}"
            for granule in range(base + 128 * inside, base + 128 * inside + 128, 16):
                yield from told(granule)
        if version != 2:
            continue
        if front.at <= offset < front.at + 4:
            yield f"number of words of {shown(name)}"
        for number in range(front.unpack("<I")[0]):
            start = front.at
            granule, owner = front.unpack("<QH")
            symbol = front.name()
            if start <= offset < front.at:
                inside = field_at(WORD_FIELDS, offset - start)
                owned = shown(objects[owner][2]) if owner < len(objects) else f"object {owner}"
                yield f"word {number} of {shown(name)}, {inside}: owner {owned}, symbol {shown(symbol) or '-'}"
                yield from told(granule)


def explain(contents: bytes, offset: int) -> list[str]:
    if offset >= len(contents):
        return [f"behind the end: the file has {len(contents):#x} bytes"]
    if contents.startswith(image.MAGIC):
        return list(in_image(contents, offset))
    header = elf.read_header(contents)
    found = [f"file header, {field_at(FILE_FIELDS, offset)}"] if offset < 64 else []
    if header.kind == elf.RELOCATABLE:
        found += in_relocatable(contents, header, offset)
    else:
        found += Shared(contents, header).explain(offset)
    return found or ["between the parts: nothing stands there"]


def main() -> int:
    options = argparse.ArgumentParser(description=__doc__, formatter_class=argparse.RawDescriptionHelpFormatter)
    options.add_argument("file", metavar="FILE", type=Path)
    options.add_argument("offset", metavar="OFFSET", type=lambda word: int(word, 0))
    given = options.parse_args()
    try:
        print(*explain(given.file.read_bytes(), given.offset), sep="\n")
    except Broken as broken:
        print(f"{given.file}: {broken}", file=sys.stderr)
        return 1
    except OSError as error:
        print(f"{given.file}: {error.strerror}", file=sys.stderr)
        return 1
    return 0


if __name__ == "__main__":
    sys.exit(main())
