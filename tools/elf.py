"""The records of ELF files: their numbers, their bytes, a maker of relocatable objects, and readers.

The tools, tests, examples and measurements of this repository share it; it shares nothing with the program. The maker
writes byte for byte what it is told and checks nothing, so that a file can be as false as a test needs it. The readers
take what they are given as it stands and raise `Broken` where a record is outside the file.

The formats are the System V gABI (ELF-64) and the RISC-V ELF psABI; relocations to capabilities, the two flag bits and
the table of capabilities (`__cap_relocs`) are this project's own: docs/FORMATS.md."""
import struct
from dataclasses import dataclass

RELOCATABLE, EXECUTABLE_FILE, SHARED = 1, 2, 3
RISC_V, PURE_CAPABILITY = 243, 0x30000
FLAGS_AT = 48

NULL, PROGBITS, SYMTAB, STRTAB, RELA, NOTE, NOBITS, REL = 0, 1, 2, 3, 4, 7, 8, 9
INIT_ARRAY, FINI_ARRAY, PREINIT_ARRAY, GROUP, SYMTAB_SHNDX = 14, 15, 16, 17, 18
WRITABLE, ALLOCATED, EXECUTABLE, MERGED, STRINGS_FLAG, THREAD_LOCAL, COMPRESSED = 1, 2, 4, 0x10, 0x20, 0x400, 0x800

LOCAL, GLOBAL, WEAK = 0, 1, 2
NOTYPE, OBJECT, FUNCTION, SECTION, FILE, COMMON_TYPE, TLS, IFUNC = 0, 1, 2, 3, 4, 5, 6, 10
DEFAULT, INTERNAL, HIDDEN, PROTECTED = 0, 1, 2, 3
UNDEFINED, RESERVED, ABSOLUTE, COMMON = 0, 0xFF00, 0xFFF1, 0xFFF2

NONE, WORD_64, RELATIVE, COPY, JUMP_SLOT = 0, 2, 3, 4, 5
BRANCH, JAL, CALL_PLAIN, CALL_PLT, GOT_HIGH, PCREL_HIGH, PCREL_LOW, PCREL_LOW_S = 16, 17, 18, 19, 20, 23, 24, 25
ALIGN, RELAX = 43, 51
TABLE_HIGH, CAPABILITY, CALL = 192, 193, 198
KINDS = {
    0: "NONE", 1: "32", 2: "64", 3: "RELATIVE", 4: "COPY", 5: "JUMP_SLOT", 6: "TLS_DTPMOD32", 7: "TLS_DTPMOD64",
    8: "TLS_DTPREL32", 9: "TLS_DTPREL64", 10: "TLS_TPREL32", 11: "TLS_TPREL64", 16: "BRANCH", 17: "JAL", 18: "CALL",
    19: "CALL_PLT", 20: "GOT_HI20", 21: "TLS_GOT_HI20", 22: "TLS_GD_HI20", 23: "PCREL_HI20", 24: "PCREL_LO12_I",
    25: "PCREL_LO12_S", 26: "HI20", 27: "LO12_I", 28: "LO12_S", 29: "TPREL_HI20", 30: "TPREL_LO12_I",
    31: "TPREL_LO12_S", 32: "TPREL_ADD", 33: "ADD8", 34: "ADD16", 35: "ADD32", 36: "ADD64", 37: "SUB8", 38: "SUB16",
    39: "SUB32", 40: "SUB64", 41: "GOT32_PCREL", 43: "ALIGN", 44: "RVC_BRANCH", 45: "RVC_JUMP", 46: "RVC_LUI",
    51: "RELAX", 52: "SUB6", 53: "SET6", 54: "SET8", 55: "SET16", 56: "SET32", 57: "32_PCREL", 58: "IRELATIVE",
    59: "PLT32", 60: "SET_ULEB128", 61: "SUB_ULEB128", TABLE_HIGH: "CAPTAB_PCREL_HI20", CAPABILITY: "CAPABILITY",
    CALL: "CCALL"}
MACHINES = {3: "x86", 8: "MIPS", 20: "PowerPC", 21: "64-bit PowerPC", 22: "s390", 40: "ARM", 62: "x86-64",
            183: "AArch64", RISC_V: "RISC-V"}

LOAD, DYNAMIC, THREAD_SEGMENT, RELRO = 1, 2, 7, 0x6474E552
NULL_TAG, NEEDED, PLT_SIZE, HASH, STRINGS, SYMBOLS, RELOCATIONS, RELOCATIONS_SIZE = 0, 1, 2, 4, 5, 6, 7, 8
RELOCATION_SIZE, STRINGS_SIZE, SYMBOL_SIZE, SONAME, PLT_RELOCATIONS, INIT, FINI = 9, 10, 11, 14, 23, 25, 26
INIT_SIZE, FINI_SIZE, ENTRIES, ENTRIES_SIZE, GNU_HASH = 27, 28, 0x7000C000, 0x7000C001, 0x6FFFFEF5
FUNCTION_ENTRY, READ_ONLY_ENTRY, WRITABLE_ENTRY = 1 << 63, 1 << 62, 0

FILE_HEADER = struct.Struct("<HHIQQQIHHHHHH")
SECTION_HEADER = struct.Struct("<IIQQQQIIQQ")
PROGRAM_HEADER = struct.Struct("<IIQQQQQQ")
SYMBOL = struct.Struct("<IBBHQQ")
RELOCATION = struct.Struct("<QIIq")
ENTRY = struct.Struct("<5Q")
TAG = struct.Struct("<QQ")


def u16(value: int) -> bytes:
    return struct.pack("<H", value)


def u32(*values: int) -> bytes:
    return struct.pack(f"<{len(values)}I", *values)


def u64(*values: int) -> bytes:
    return struct.pack(f"<{len(values)}Q", *(value % 2**64 for value in values))


def up(at: int, multiple: int) -> int:
    return -(-at // multiple) * multiple


# ---- What a file is made of

@dataclass
class Section:
    """A section; its contents are bytes, or the size of one without bytes in the file."""
    name: str
    contents: bytes | int = b""
    flags: int = 0
    alignment: int = 1
    kind: int | None = None
    link: int = 0
    info: int = 0
    entry_size: int = 0
    at: int = 0

    @property
    def type(self) -> int:
        if self.kind is None:
            return NOBITS if isinstance(self.contents, int) else PROGBITS
        return self.kind

    @property
    def size(self) -> int:
        return self.contents if isinstance(self.contents, int) else len(self.contents)


def text(contents: bytes) -> Section:
    return Section(".text", contents, ALLOCATED | EXECUTABLE, 4)


def data(contents: bytes, name: str = ".data", alignment: int = 16) -> Section:
    return Section(name, contents, ALLOCATED | WRITABLE, alignment)


def zeros(size: int, alignment: int = 1) -> Section:
    return Section(".bss", size, ALLOCATED | WRITABLE, alignment)


def initial_calls(contents: bytes) -> Section:
    return Section(".init_array", contents, ALLOCATED | WRITABLE, 16, INIT_ARRAY)


@dataclass
class Symbol:
    """A symbol, by default a global one without type. Its section is a name or a number; the value of a common symbol
    is its alignment."""
    name: str
    section: str | int = UNDEFINED
    value: int = 0
    size: int = 0
    kind: int = NOTYPE
    binding: int = GLOBAL
    visibility: int = 0

    @property
    def is_placed(self) -> bool:
        """Whether it stands in a section."""
        return isinstance(self.section, str) or UNDEFINED < self.section < RESERVED


def thing(name: str, section: str | int, value: int, size: int, binding: int = GLOBAL) -> Symbol:
    return Symbol(name, section, value, size, OBJECT, binding)


def function(name: str, section: str | int, value: int, size: int) -> Symbol:
    return Symbol(name, section, value, size, FUNCTION)


def label(name: str, value: int) -> Symbol:
    return Symbol(name, ".text", value, 0, NOTYPE, LOCAL)


@dataclass
class Relocation:
    """A relocation; its symbol is a name or a number."""
    offset: int
    symbol: str | int
    addend: int = 0
    kind: int = CAPABILITY


def kind_name(kind: int) -> str:
    return KINDS.get(kind, f"kind {kind}")


# ---- Making

class Made(bytes):
    """The bytes of a file, and the offsets of the parts that a test speaks of, by name."""
    at: dict[str, int]

    def __new__(cls, contents: bytes, at: dict[str, int]) -> "Made":
        made = super().__new__(cls, contents)
        made.at = at
        return made

    def but(self, changes: dict[int, bytes]) -> bytes:
        """The same with other bytes at these offsets."""
        changed = bytearray(self)
        for at, new in changes.items():
            changed[at:at + len(new)] = new
        return bytes(changed)


class Strings:
    """A string table: a zero byte, then each name with a zero byte."""

    def __init__(self) -> None:
        self.made = bytearray(1)

    @property
    def contents(self) -> bytes:
        return bytes(self.made)

    def place(self, name: str) -> int:
        if not name:
            return 0
        at = len(self.made)
        self.made += name.encode("latin-1") + b"\0"
        return at


def gabi_hash(name: bytes) -> int:
    h = 0
    for byte in name:
        h = (h * 16 + byte) & 0xFFFFFFFF
        high = h & 0xF0000000
        h = (h ^ high >> 24) & ~high
    return h


def hash_words(names: list[bytes], bucket_count: int | None = None) -> list[int]:
    """DT_HASH over the names of the symbols behind the null symbol."""
    count = len(names) + 1
    buckets, chains = [0] * (bucket_count or max(1, count // 2)), [0] * count
    for i, name in enumerate(names, 1):
        bucket = gabi_hash(name) % len(buckets)
        chains[i], buckets[bucket] = buckets[bucket], i
    return [len(buckets), count, *buckets, *chains]


def gnu_hash(name: bytes) -> int:
    h = 5381
    for byte in name:
        h = (h * 33 + byte) & 0xFFFFFFFF
    return h


def gnu_words(hashes: list[int], first: int, bucket_count: int) -> list[int]:
    """DT_GNU_HASH over symbols with these hashes that stand from the number `first` on, in the order of their buckets.
    Its filter lets every name pass."""
    buckets = [0] * bucket_count
    chain = []
    for number, (h, following) in enumerate(zip(hashes, [*hashes[1:], None]), first):
        is_last = following is None or following % bucket_count != h % bucket_count
        buckets[h % bucket_count] = buckets[h % bucket_count] or number
        chain.append(h | 1 if is_last else h & ~1)
    return [bucket_count, first, 1, 0, 0xFFFFFFFF, 0xFFFFFFFF, *buckets, *chain]


def symbol_bytes(name_at: int, symbol: Symbol, section: int) -> bytes:
    return SYMBOL.pack(name_at, symbol.binding << 4 | symbol.kind, symbol.visibility, section, symbol.value,
                       symbol.size)


def relocation_bytes(relocations: list[Relocation], symbols: list[Symbol]) -> bytes:
    numbers: dict[str | int, int] = {}
    if any(isinstance(r.symbol, str) for r in relocations):
        numbers = {symbol.name: number for number, symbol in reversed(list(enumerate(symbols, 1)))}
    return b"".join(u64(r.offset, numbers.get(r.symbol, r.symbol) << 32 | r.kind, r.addend) for r in relocations)


def tag_bytes(tags: list[tuple[int, int]]) -> bytes:
    return b"".join(u64(tag, value) for tag, value in tags)


def program_header(kind: int, flags: int, at: int, file_size: int, size: int, alignment: int) -> bytes:
    """The header of a segment whose place in the file is its address."""
    return PROGRAM_HEADER.pack(kind, flags, at, at, at, file_size, size, alignment)


def file_header(kind: int, program_headers: int, sections: int, sections_at: int,
                flags: int = PURE_CAPABILITY) -> bytes:
    return b"\x7fELF\x02\x01\x01" + bytes(9) + FILE_HEADER.pack(
        kind, RISC_V, 1, 0, 64 if program_headers else 0, sections_at, flags, 64, 56 if program_headers else 0,
        program_headers, 64, sections, max(sections - 1, 0))


def relocatable(sections: list[Section], symbols: list[Symbol] = (),
                relocations: dict[str | int, list[Relocation]] | None = None, symbols_at: int | None = None,
                flags: int = PURE_CAPABILITY) -> Made:
    """A relocatable object: the header, the sections, a relocation section for each section that has some (by its name,
    or its number from 1 on), symbols and names, and the section headers. The offsets: `header NAME`, `contents NAME`
    and `records NAME` (its relocations) of a section, `symbol NAME` of a symbol."""
    numbers = {section.name: number for number, section in enumerate(sections, 1)}
    lists = {numbers[key] if isinstance(key, str) else key: records for key, records in (relocations or {}).items()}
    names, section_names = Strings(), Strings()
    table = bytes(24) + b"".join(
        symbol_bytes(names.place(s.name), s, numbers[s.section] if isinstance(s.section, str) else s.section)
        for s in symbols)
    first_global = next((number for number, s in enumerate(symbols, 1) if s.binding != LOCAL), len(symbols) + 1)
    table_number = len(sections) + len(lists) + 1
    whole = [*sections,
             *(Section(".rela" + sections[number - 1].name, relocation_bytes(records, symbols), 0, 8, RELA,
                       table_number, number, 24) for number, records in lists.items()),
             Section(".symtab", table, 0, 8, SYMTAB, table_number + 1, first_global, 24),
             Section(".strtab", names.contents, 0, 1, STRTAB), Section(".shstrtab", b"", 0, 1, STRTAB)]
    name_places = [section_names.place(section.name) for section in whole]
    whole[-1].contents = section_names.contents

    at: dict[str, int] = {}
    body, headers = bytearray(64), bytearray(64)
    for section, name_at in zip(whole, name_places):
        if section.name == ".symtab" and symbols_at is not None:
            body += bytes(symbols_at - len(body))
        body += bytes(up(len(body), min(max(section.alignment, 1), 16)) - len(body))
        at["header " + section.name] = len(headers)
        at["contents " + section.name] = len(body)
        headers += SECTION_HEADER.pack(name_at, section.type, section.flags, 0, len(body), section.size, section.link,
                                       section.info, section.alignment, section.entry_size)
        body += section.contents if isinstance(section.contents, bytes) else b""
    body += bytes(up(len(body), 8) - len(body))
    body[:64] = file_header(RELOCATABLE, 0, len(whole) + 1, len(body), flags)
    for number in lists:
        at["records " + sections[number - 1].name] = at["contents .rela" + sections[number - 1].name]
    for number, symbol in enumerate(symbols, 1):
        at["symbol " + symbol.name] = at["contents .symtab"] + 24 * number
    for section in whole:
        at["header " + section.name] += len(body)
    return Made(bytes(body + headers), at)


# ---- Reading

class Broken(Exception):
    """The file isn't what the reader takes; the text says why."""


@dataclass
class Header:
    """What the file header says."""
    kind: int
    flags: int
    entry: int
    program_headers: range
    sections: range
    names: int


def cut(contents: bytes, at: int, size: int, what: str) -> bytes:
    if at + size > len(contents):
        raise Broken(f"{what} is outside the file")
    return contents[at:at + size]


def text_of(strings: bytes, at: int) -> str:
    """The name at a place of a string table."""
    end = strings.find(0, at)
    return strings[at:end if end >= 0 else len(strings)].decode("latin-1")


def what_it_is(contents: bytes) -> str | None:
    """Why this can't be an ELF file for 64-bit RISC-V, in words; None where it may be one."""
    for magic, told in [(b"!<arch>\n", "an archive"), (b"!<thin>\n", "a thin archive"),
                        (b"BC\xc0\xde", "LLVM bitcode: compile without -flto"),
                        (b"\xde\xc0\x17\x0b", "LLVM bitcode: compile without -flto"), (b"PURECAPI", "an image")]:
        if contents.startswith(magic):
            return told
    if not contents:
        return "an empty file"
    if not contents.startswith(b"\x7fELF"):
        is_text = all(byte in b"\t\n\r" or 32 <= byte < 127 for byte in contents[:256])
        return "text (a linker script?) and no ELF file" if is_text else "no ELF file"
    if len(contents) < 64:
        return "an ELF file cut off in its header"
    machine = struct.unpack_from("<H", contents, 18)[0]
    if contents[4:6] != b"\x02\x01" or machine != RISC_V:
        form = {1: "32-bit", 2: "64-bit"}.get(contents[4], "unknown")
        return f"a {form} ELF file for {MACHINES.get(machine, f'machine {machine}')}, and not for 64-bit RISC-V"
    return None


def read_header(contents: bytes) -> Header:
    told = what_it_is(contents)
    if told:
        raise Broken(told)
    kind, _, _, entry, programs_at, sections_at, flags, _, _, programs, _, sections, names = FILE_HEADER.unpack_from(
        contents, 16)
    return Header(kind, flags, entry, range(programs_at, programs_at + 56 * programs, 56),
                  range(sections_at, sections_at + 64 * sections, 64), names)


def read_sections(contents: bytes, header: Header) -> list[Section]:
    """The sections by number, the null section included."""
    sections, names_at = [], []
    for at in header.sections:
        name_at, kind, flags, _, place, size, link, info, alignment, entry_size = SECTION_HEADER.unpack(
            cut(contents, at, 64, "a section header"))
        body = size if kind in (NULL, NOBITS) else cut(contents, place, size, f"section {len(sections)}")
        sections.append(Section("", body, flags, alignment, kind, link, info, entry_size, place))
        names_at.append(name_at)
    if sections and header.names < len(sections) and isinstance(sections[header.names].contents, bytes):
        for section, name_at in zip(sections, names_at):
            section.name = text_of(sections[header.names].contents, name_at)
    return sections


def read_symbols(table: bytes, strings: bytes) -> list[Symbol]:
    """The symbols by number, the null symbol included."""
    return [Symbol(text_of(strings, name_at), section, value, size, info & 15, info >> 4, other & 3)
            for name_at, info, other, section, value, size in SYMBOL.iter_unpack(table[:len(table) // 24 * 24])]


def read_relocations(table: bytes) -> list[Relocation]:
    return [Relocation(offset, symbol, addend, kind)
            for offset, kind, symbol, addend in RELOCATION.iter_unpack(table[:len(table) // 24 * 24])]


@dataclass
class RelocatableObject:
    """What a relocatable object says. Sections and symbols stand by their numbers, relocations by the number of the
    section that they change."""
    flags: int
    sections: list[Section]
    symbols: list[Symbol]
    relocations: dict[int, list[Relocation]]


def read_relocatable(contents: bytes) -> RelocatableObject:
    header = read_header(contents)
    if header.kind != RELOCATABLE:
        told = {EXECUTABLE_FILE: "an executable", SHARED: "a shared object"}.get(header.kind, f"of type {header.kind}")
        raise Broken(f"{told}, and not a relocatable object")
    sections = read_sections(contents, header)
    symbols = [Symbol("", binding=LOCAL)]
    for section in sections:
        if section.type == SYMTAB:
            if section.link >= len(sections) or isinstance(sections[section.link].contents, int):
                raise Broken("its symbol table has no names")
            symbols = read_symbols(section.contents, sections[section.link].contents)
    relocations: dict[int, list[Relocation]] = {}
    for section in sections:
        if section.type == RELA:
            relocations.setdefault(section.info, []).extend(read_relocations(section.contents))
    for records in relocations.values():
        if any(r.symbol >= len(symbols) for r in records):
            raise Broken("a relocation names a symbol that isn't there")
    return RelocatableObject(header.flags, sections, symbols, relocations)


def members_of(archive: bytes) -> list[tuple[str, bytes]]:
    """The members of an archive (System V or BSD form), without its index."""
    members, at, long_names = [], 8, b""
    while at + 60 <= len(archive):
        head = archive[at:at + 60]
        if head[58:60] != b"`\n" or not head[48:58].strip().isdigit():
            raise Broken(f"an archive whose member at {at:#x} has no header")
        name, size = head[:16].decode("latin-1").rstrip(), int(head[48:58])
        body = cut(archive, at + 60, size, f"the archive's member at {at:#x}")
        at += 60 + size + size % 2
        if name == "//":
            long_names = body + b"/\n"
        elif name in ("/", "/SYM64/", "__.SYMDEF"):
            continue
        elif name.startswith("#1/") and name[3:].isdigit():
            length = int(name[3:])
            members.append((body[:length].rstrip(b"\0").decode("latin-1"), body[length:]))
        elif name.startswith("/") and name[1:].isdigit():
            place = int(name[1:])
            members.append((long_names[place:long_names.find(b"/\n", place)].decode("latin-1"), body))
        else:
            members.append((name.removesuffix("/"), body))
    return members
