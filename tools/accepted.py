"""What `purecap link` takes of a relocatable object, as docs/FORMATS.md says it: shared by the tools that make such
objects or look at them."""
from collections.abc import Iterator
from dataclasses import dataclass

from elf import (ABSOLUTE, ALIGN, ALLOCATED, BRANCH, CALL, CALL_PLAIN, CALL_PLT, CAPABILITY, COMMON, COMPRESSED,
                 EXECUTABLE, FINI_ARRAY, FUNCTION, GLOBAL, GOT_HIGH, GROUP, IFUNC, INIT_ARRAY, JAL, LOCAL, NOBITS,
                 NONE, NOTE, OBJECT, PCREL_HIGH, PCREL_LOW, PCREL_LOW_S, PREINIT_ARRAY, PROGBITS, REL, RELAX,
                 RESERVED, SECTION, SYMTAB_SHNDX, TABLE_HIGH, THREAD_LOCAL, TLS, UNDEFINED, WEAK, WORD_64, WRITABLE,
                 RelocatableObject, Relocation, Section, Symbol, kind_name)

LARGEST_ALIGNMENT, LARGEST_ZEROS, LONGEST_NAME = 65_536, 1 << 26, 255

PASSED_OVER = {NONE, RELAX}
DIFFERENCES = {*range(33, 41), 52, 53, 54, 55, 56, 57}
IN_CODE = {BRANCH, JAL, CALL_PLAIN, CALL_PLT, PCREL_HIGH, PCREL_LOW, PCREL_LOW_S, 44, 45, TABLE_HIGH, CALL}

ABSOLUTE_KINDS = {1, 26, 27, 28, 46}
THREAD_KINDS = {6, 7, 8, 9, 10, 11, 21, 22, 29, 30, 31, 32}


class Class:
    """What a section is to the linker."""
    CODE, READ_ONLY, RELRO, DATA, ZEROS, CALLS, DROPPED = (
        "code", "read-only data", "read-only data once it is relocated", "data", "zeros", "an array of calls",
        "dropped")


SPLIT = {Class.READ_ONLY, Class.RELRO, Class.DATA, Class.ZEROS}
HOLDS_CAPABILITIES = {Class.RELRO, Class.DATA, Class.CALLS}


def class_of(section: Section) -> str:
    if not section.flags & ALLOCATED or section.type == NOTE:
        return Class.DROPPED
    if section.type in (INIT_ARRAY, FINI_ARRAY):
        return Class.CALLS
    if section.flags & EXECUTABLE:
        return Class.CODE
    if section.type == NOBITS:
        return Class.ZEROS
    if not section.flags & WRITABLE:
        return Class.READ_ONLY
    return Class.RELRO if section.name == ".data.rel.ro" or section.name.startswith(".data.rel.ro.") else Class.DATA


def is_plain_name(name: str) -> bool:
    return len(name) <= LONGEST_NAME and all(" " <= c <= "~" for c in name)


def shown(name: str) -> str:
    """A name that may have any bytes."""
    return "".join(c if " " <= c <= "~" else f"\\x{ord(c):02x}" for c in name)


def name_of(o: RelocatableObject, symbol: Symbol) -> str:
    """A symbol's name; a section's symbol has the section's."""
    if not symbol.name and symbol.is_placed and symbol.section < len(o.sections):
        return o.sections[symbol.section].name
    return shown(symbol.name) or "no symbol"


@dataclass(frozen=True)
class Finding:
    """What is not of the profile, and where: a section with an offset, or a symbol."""
    where: str
    why: str

    def __str__(self) -> str:
        return f"{self.where}: {self.why}"


def at(section: Section, offset: int) -> str:
    return f"{section.name}+{offset:#x}"


# ---- Sections

def why_not_section(section: Section) -> str | None:
    if section.type == REL:
        return "relocations without addends"
    if section.type == SYMTAB_SHNDX:
        return "more than 65,000 sections"
    if section.type == PREINIT_ARRAY:
        return "calls before the initial ones (.preinit_array)"
    if not section.flags & ALLOCATED:
        return None
    if section.flags & THREAD_LOCAL:
        return "thread-local data"
    if section.type not in (PROGBITS, NOTE, NOBITS, INIT_ARRAY, FINI_ARRAY):
        return f"a section of type {section.type:#x}"
    if section.flags & COMPRESSED:
        return "compressed"
    if section.flags & WRITABLE and section.flags & EXECUTABLE:
        return "code that can be written"
    if section.type == NOBITS and not section.flags & WRITABLE:
        return "zeros that can't be written"
    if class_of(section) == Class.CALLS and section.name.startswith((".init_array.", ".fini_array.")):
        return "calls with a priority: use constructors without one"
    if section.alignment & (section.alignment - 1) or section.alignment > LARGEST_ALIGNMENT:
        return f"an alignment of {section.alignment}"
    if section.type == NOBITS and section.size > LARGEST_ZEROS:
        return f"{section.size} bytes of zeros"
    return None


# ---- Symbols

def why_not_symbol(o: RelocatableObject, symbol: Symbol) -> str | None:
    if symbol.kind == TLS:
        return "thread-local data"
    if symbol.kind == IFUNC:
        return "a function that is chosen when the program starts (ifunc)"
    if symbol.kind > TLS:
        return f"a symbol of type {symbol.kind}"
    if symbol.binding not in (LOCAL, GLOBAL, WEAK):
        return "a binding of GNU's own: compile with -fno-gnu-unique"
    if not is_plain_name(symbol.name):
        return "a name of more than 255 bytes, or with other bytes than printable ASCII"
    if symbol.section in (UNDEFINED, ABSOLUTE):
        return None
    if symbol.section == COMMON:
        fits = 0 < symbol.value <= LARGEST_ALIGNMENT and not symbol.value & (symbol.value - 1)
        if symbol.binding != GLOBAL or not fits or symbol.size > LARGEST_ZEROS:
            return "a common symbol that is weak, too large, or has no alignment"
        return None
    if symbol.section >= RESERVED or symbol.section >= len(o.sections):
        return f"a section of number {symbol.section:#x}"
    section = o.sections[symbol.section]
    held = class_of(section)
    if held == Class.DROPPED:
        return f"defined in {section.name}, which is dropped" if symbol.binding != LOCAL else None
    if symbol.value + symbol.size > section.size:
        return f"passes the end of {section.name}"
    if symbol.kind == FUNCTION and held != Class.CODE:
        return f"a function in {section.name}, which is no code"
    if symbol.kind == OBJECT and held == Class.CODE:
        return f"data in {section.name}, which is code"
    if held == Class.CALLS and (symbol.kind == OBJECT or symbol.size):
        return f"data in {section.name}, which is an array of calls"
    return None


def overlaps(o: RelocatableObject) -> Iterator[Finding]:
    """Symbols of data that share bytes without being equal, in each section the neighbours."""
    cuts: dict[int, dict[tuple[int, int], str]] = {}
    for symbol in o.symbols[1:]:
        section = o.sections[symbol.section] if symbol.is_placed and symbol.section < len(o.sections) else None
        if section and symbol.size and class_of(section) in SPLIT:
            cuts.setdefault(symbol.section, {}).setdefault((symbol.value, symbol.value + symbol.size), symbol.name)
    for number, intervals in cuts.items():
        reached, widest = 0, ""
        for (start, end), name in sorted(intervals.items()):
            if start < reached:
                yield Finding(at(o.sections[number], start),
                              f"{shown(name)} shares bytes with {shown(widest)}, and is not the same part of it")
            if end > reached:
                reached, widest = end, name


# ---- Relocations

def why_not_kind(kind: int, held: str) -> str | None:
    """Why the linker takes no relocation of this kind in a section of this class."""
    if kind in PASSED_OVER or kind in DIFFERENCES and held != Class.ZEROS:
        return None
    if kind in IN_CODE:
        return None if held == Class.CODE else f"code's relocation in {held}"
    if kind == CAPABILITY:
        return None if held in HOLDS_CAPABILITIES else f"a capability in {held}"
    if kind == WORD_64:
        return None if held in (Class.RELRO, Class.DATA) else f"a plain 64-bit address in {held}"
    if kind == GOT_HIGH:
        return "a load from a GOT, not converted"
    if kind in THREAD_KINDS:
        return "thread-local data"
    if kind in ABSOLUTE_KINDS:
        return "an absolute address: compile with -fPIC"
    if kind == ALIGN:
        return "code that a linker is to shorten: compile with -mno-relax"
    return "no such relocation is taken"


def why_not_target(o: RelocatableObject, record: Relocation) -> str | None:
    symbol = o.symbols[record.symbol]
    if symbol.is_placed and symbol.section < len(o.sections) and class_of(o.sections[symbol.section]) == Class.DROPPED:
        return f"its target stands in {o.sections[symbol.section].name}, which is dropped"
    if record.kind == TABLE_HIGH and record.addend:
        return f"an addend of {record.addend} to a place in the table of capabilities"
    if record.kind == CAPABILITY and symbol.is_placed and not is_inside(o, symbol, record.addend):
        return f"{record.addend} bytes from it, and outside of it"
    return None


def is_by_offset(symbol: Symbol) -> bool:
    """Whether the symbol stands for its section, so that an addend may name any byte of it."""
    return symbol.kind == SECTION or symbol.binding == LOCAL and not symbol.size


def is_inside(o: RelocatableObject, symbol: Symbol, addend: int) -> bool:
    """Whether a capability with this addend names a byte of its target, or the end of it. Of code nothing is asked."""
    if symbol.section >= len(o.sections) or class_of(o.sections[symbol.section]) not in SPLIT:
        return True
    if is_by_offset(symbol):
        return 0 <= symbol.value + addend <= o.sections[symbol.section].size
    return 0 <= addend <= symbol.size


def kept_relocations(o: RelocatableObject) -> Iterator[tuple[Section, str, Relocation]]:
    """The relocations of sections that are kept."""
    for number, records in o.relocations.items():
        if 0 < number < len(o.sections) and class_of(o.sections[number]) != Class.DROPPED:
            for record in records:
                yield o.sections[number], class_of(o.sections[number]), record


def told_of(o: RelocatableObject, record: Relocation) -> str:
    return f"{kind_name(record.kind)} of {name_of(o, o.symbols[record.symbol])}"


def plain_addresses(o: RelocatableObject) -> list[Finding]:
    """Each field that keeps a plain 64-bit address, from which no program can make a capability."""
    return [Finding(at(section, record.offset), f"a plain 64-bit address of {name_of(o, o.symbols[record.symbol])}")
            for section, _, record in kept_relocations(o) if record.kind == WORD_64]


def refusals(o: RelocatableObject) -> list[Finding]:
    """What the linker would refuse of the object, as far as the object alone says."""
    found = [Finding(section.name, why) for section in o.sections[1:] if (why := why_not_section(section))]
    found += [Finding(section.name, "a group of sections") for section in o.sections if section.type == GROUP]
    found += [Finding(name_of(o, symbol), why) for symbol in o.symbols[1:] if (why := why_not_symbol(o, symbol))]
    found += overlaps(o)
    for section, held, record in kept_relocations(o):
        why = why_not_kind(record.kind, held) or why_not_target(o, record)
        if why and record.kind not in PASSED_OVER:
            found.append(Finding(at(section, record.offset), f"{told_of(o, record)}: {why}"))
    return found
