#!/usr/bin/env python3
"""Turns objects of an ordinary RISC-V compiler into objects of the pure-capability profile.

    convert.py -o OUT OBJECT        one object
    convert.py -d FOLDER FILE...    objects, and each member of archives, under their names into FOLDER
    convert.py --check FILE...      writes nothing; tells what is left of plain addresses, and what `link` would refuse

Compile with `-fPIC -mno-relax` (clang --target=riscv64-linux-gnu, or riscv64-linux-gnu-gcc -fno-section-anchors).

WHAT COMES OUT IS FOR TRYING THE LINKER, NOT FOR RUNNING. The compiler's code still thinks that a pointer has 8 bytes:
it loads 8 bytes from the table of capabilities, and steps through arrays of pointers by 8. What has no relocation is
not known to be a pointer and stays as it is: null pointers in data, and variables that begin as zeros.

What is changed: the two flags of the profile are set; each pointer in data becomes an aligned slot of 16 bytes with the
relocation CAPABILITY, and what stands behind it moves, with symbols, sizes, addends and other relocations; so do arrays
of initial and final calls; read-only data with pointers becomes `.data.rel.ro`; loads from a GOT go to the table of
capabilities; calls become CCALL; an address of code that no symbol begins at gets a label; local names with other
bytes than printable ASCII are rewritten; groups of sections are dissolved, so that each copy stays; what no program
loads (debug information, notes) is left out.

What can't be converted is refused, by section and symbol, and status 1. Each plain 64-bit address that is left is
warned of: one in a packed record, or in a section that `--plain` names."""
import argparse
import sys
from bisect import bisect_right
from collections.abc import Iterator
from dataclasses import dataclass, field, replace
from pathlib import Path

from accepted import (PASSED_OVER, SPLIT, Class, Finding, at, class_of, is_by_offset, is_plain_name, name_of,
                      plain_addresses, refusals, told_of)
from elf import (CALL, CALL_PLAIN, CALL_PLT, CAPABILITY, GOT_HIGH, GROUP, LOCAL, MERGED, NULL, OBJECT, PURE_CAPABILITY,
                 SECTION, STRINGS_FLAG, TABLE_HIGH, UNDEFINED, WORD_64, WRITABLE, Broken, RelocatableObject,
                 Relocation, Section, Symbol, members_of, read_relocatable, relocatable, up, what_it_is)

SLOT, POINTER = 16, 8
UNWINDING = (".eh_frame", ".gcc_except_table")
ANCHOR = ".LANCHOR"
NEW_KINDS = {GOT_HIGH: TABLE_HIGH, CALL_PLAIN: CALL, CALL_PLT: CALL}


class Refused(Exception):
    """Why an object can't be converted: all that was found."""

    def __init__(self, findings: list[Finding]) -> None:
        super().__init__("; ".join(map(str, findings)))
        self.findings = findings


# ---- Where the bytes of a section go

def alignment_of(offset: int, section: Section) -> int:
    """The alignment that a part at this offset has by its section."""
    whole = max(section.alignment, 1)
    return whole if offset == 0 else min(whole, offset & -offset)


@dataclass
class Layout:
    """Where the bytes of one section go. From each old place on, up to the next, bytes stand as they stood from the new
    place on; a pointer's place is one of them."""
    old: list[int] = field(default_factory=list)
    new: list[int] = field(default_factory=list)
    ends: dict[int, int] = field(default_factory=dict)
    contents: bytearray = field(default_factory=bytearray)
    unnamed: list[tuple[int, int]] = field(default_factory=list)

    def moved(self, offset: int) -> int:
        """Where the byte at this old offset stands."""
        before = bisect_right(self.old, offset) - 1
        return self.new[before] + offset - self.old[before]

    def enter(self, old: int, new: int) -> None:
        self.old.append(old)
        self.new.append(new)


def parts_of(section: Section, symbols: list[Symbol]) -> Iterator[tuple[int, int, bool]]:
    """The parts of a section that keep together: what each symbol covers, and what lies between, from start to end;
    whether a symbol covers it."""
    reached = 0
    for start, end in sorted({(s.value, s.value + s.size) for s in symbols if s.size}):
        if reached < start:
            yield reached, start, False
        yield start, end, True
        reached = end
    if reached < section.size:
        yield reached, section.size, False


def widened(section: Section, symbols: list[Symbol], pointers: list[int]) -> Layout:
    """The section with a slot of 16 bytes for each pointer. A part with slots begins at a multiple of 16 and has whole
    slots, as a C type with pointers would; so the linker may place it by itself. A part that no symbol covers begins
    where the one before it ends, so it needs a symbol where that is no multiple of 16."""
    layout, left = Layout(), sorted(pointers, reverse=True)
    for start, end, is_covered in parts_of(section, symbols):
        inside = []
        while left and left[-1] < end:
            inside.append(left.pop())
        before = len(layout.contents)
        align = max(alignment_of(start, section), SLOT if inside else 1)
        layout.contents += bytes(up(before, align) - before)
        if inside and not is_covered and before % SLOT:
            layout.unnamed.append((start, end))
        begin = start
        layout.enter(start, len(layout.contents))
        for pointer in inside:
            layout.contents += section.contents[begin:pointer]
            layout.contents += bytes(up(len(layout.contents), SLOT) - len(layout.contents))
            layout.enter(pointer, len(layout.contents))
            layout.contents += bytes(SLOT)
            begin = pointer + POINTER
            layout.enter(begin, len(layout.contents))
        layout.contents += section.contents[begin:end]
        if inside:
            layout.contents += bytes(up(len(layout.contents), SLOT) - len(layout.contents))
        layout.ends[start] = len(layout.contents)
    layout.enter(section.size, len(layout.contents))
    return layout


# ---- One object

@dataclass
class Converted:
    contents: bytes
    warnings: list[Finding]


class Conversion:
    """The conversion of one object, step by step. What is refused on the way is collected, and told at its end."""

    def __init__(self, o: RelocatableObject, plain: set[str]) -> None:
        self.old = o
        self.plain = plain
        self.refused: list[Finding] = []
        self.warnings: list[Finding] = []
        self.layouts: dict[int, Layout] = {}
        self.labels: dict[tuple[int, int], Symbol] = {}

    def run(self) -> Converted:
        self.accept()
        self.lay()
        self.stop_if_refused()
        symbols = [self.symbol(symbol) for symbol in self.old.symbols]
        relocations = {number: [self.relocation(number, record) for record in records if record.kind not in PASSED_OVER]
                       for number, records in self.old.relocations.items() if self.is_kept(number)}
        self.stop_if_refused()
        return self.written(symbols, relocations)

    def stop_if_refused(self) -> None:
        if self.refused:
            raise Refused(self.refused)

    def is_kept(self, number: int) -> bool:
        return 0 < number < len(self.old.sections) and class_of(self.old.sections[number]) != Class.DROPPED

    # -- what is taken

    def accept(self) -> None:
        """Rewrites at once what has a form in the profile, and asks of the rest what the linker would refuse."""
        o = self.old
        groups = sum(section.type == GROUP for section in o.sections)
        if groups:
            self.warnings.append(Finding("groups", f"{groups} groups of sections are dissolved: each copy stays"))
        if any(symbol.name.startswith(ANCHOR) for symbol in o.symbols):
            why = "code may reach several variables from one, whose distances change: compile with -fno-section-anchors"
            self.warnings.append(Finding("section anchors", why))
        o.sections = [replace(section, kind=NULL) if section.type == GROUP else section for section in o.sections]
        for symbol in o.symbols:
            if symbol.binding == LOCAL and not is_plain_name(symbol.name):
                symbol.name = "".join(c if " " <= c <= "~" else "_" for c in symbol.name)[:255]
        pointers = {number: self.pointers(number) for number in o.relocations if self.is_kept(number)}
        for number, offsets in pointers.items():
            section = o.sections[number]
            addresses = any(record.kind == WORD_64 for record in o.relocations[number])
            if addresses and section.name.startswith(UNWINDING):
                why = "plain addresses in what unwinds the stack: compile with -fPIC"
                self.refused.append(Finding(section.name, why))
            elif addresses and class_of(section) == Class.READ_ONLY:
                section.name = ".data.rel.ro" + section.name
                section.flags = section.flags & ~(MERGED | STRINGS_FLAG) | WRITABLE
                section.entry_size = 0
        for number, records in o.relocations.items():
            if self.is_kept(number):
                o.relocations[number] = [replace(r, kind=self.kind(r, pointers[number])) for r in records]
        for section in o.sections:
            if class_of(section) == Class.CALLS:
                section.flags |= WRITABLE
        self.refused += refusals(o)

    def pointers(self, number: int) -> set[int]:
        """Where the section has a pointer that gets a slot."""
        section, records = self.old.sections[number], self.old.relocations[number]
        if class_of(section) == Class.CODE or section.name in self.plain:
            return set()
        others = {r.offset for r in records if r.kind not in PASSED_OVER and r.kind not in (WORD_64, CAPABILITY)}
        return {r.offset for r in records if r.kind == WORD_64 and r.offset % POINTER == 0 and r.offset not in others}

    @staticmethod
    def kind(record: Relocation, pointers: set[int]) -> int:
        if record.kind == WORD_64 and record.offset in pointers:
            return CAPABILITY
        return NEW_KINDS.get(record.kind, record.kind)

    # -- where bytes go

    def lay(self) -> None:
        """The layout of each section that has a pointer or is an array of calls, once the object is taken."""
        if self.refused:
            return
        by_section: dict[int, list[Symbol]] = {}
        for symbol in self.old.symbols[1:]:
            if symbol.is_placed and self.is_kept(symbol.section):
                by_section.setdefault(symbol.section, []).append(symbol)
        for number, section in enumerate(self.old.sections):
            if not self.is_kept(number):
                continue
            symbols = by_section.get(number, [])
            pointers = [r.offset for r in self.old.relocations.get(number, []) if r.kind == CAPABILITY]
            if class_of(section) == Class.CALLS:
                if section.size % POINTER:
                    self.refused.append(Finding(section.name, "not an array of addresses"))
                    continue
                pointers = list(range(0, section.size, POINTER))
            if pointers and self.are_whole(section, symbols, pointers):
                self.layouts[number] = widened(section, symbols, pointers)

    def are_whole(self, section: Section, symbols: list[Symbol], pointers: list[int]) -> bool:
        """Whether each pointer lies in the section, and is cut by no symbol's start or end."""
        places = set(pointers)
        found = [Finding(at(section, pointer), "a pointer that passes the end") for pointer in pointers
                 if pointer + POINTER > section.size]
        for symbol in symbols:
            for edge in (symbol.value, symbol.value + symbol.size):
                cut = next((edge - i for i in range(1, POINTER) if edge - i in places), None)
                if cut is not None:
                    found.append(Finding(at(section, cut), f"a pointer in part inside {name_of(self.old, symbol)}"))
        self.refused += found
        return not found

    # -- symbols and relocations

    def symbol(self, symbol: Symbol) -> Symbol:
        """The symbol where it stands now."""
        layout = self.layouts.get(symbol.section) if symbol.is_placed else None
        if layout is None:
            return symbol
        value = layout.moved(symbol.value)
        return replace(symbol, value=value, size=layout.ends[symbol.value] - value if symbol.size else 0)

    def relocation(self, number: int, record: Relocation) -> Relocation:
        """The relocation where it stands now, with an addend that names the same byte as before."""
        section, symbol = self.old.sections[number], self.old.symbols[record.symbol]
        layout = self.layouts.get(number)
        moved = replace(record, offset=layout.moved(record.offset) if layout else record.offset)
        if not symbol.is_placed:
            if record.kind == CAPABILITY and record.addend and symbol.section == UNDEFINED and record.symbol:
                why = f"{record.addend} bytes into {symbol.name}, which may be laid out otherwise where it is defined"
                self.warnings.append(Finding(at(section, record.offset), why))
            return moved
        held = class_of(self.old.sections[symbol.section])
        if record.kind in (CAPABILITY, TABLE_HIGH) and held not in SPLIT:
            return self.to_code(moved, section, record, held)
        if symbol.section in self.layouts:
            moved.addend = self.addend(section, record, symbol)
        return moved

    def addend(self, section: Section, record: Relocation, symbol: Symbol) -> int:
        layout, place = self.layouts[symbol.section], symbol.value + record.addend
        if not is_by_offset(symbol) and record.addend == symbol.size and symbol.size:
            return layout.ends[symbol.value] - layout.moved(symbol.value)
        if not 0 <= place <= self.old.sections[symbol.section].size:
            self.refuse(section, record, f"{record.addend} bytes from it, and outside of its section")
            return 0
        return layout.moved(place) - layout.moved(symbol.value)

    def to_code(self, moved: Relocation, section: Section, record: Relocation, held: str) -> Relocation:
        """A capability to code names a symbol and no byte behind it: where there is none, there is a label now."""
        symbol = self.old.symbols[record.symbol]
        place = symbol.value + record.addend
        if held != Class.CODE or not 0 <= place <= self.old.sections[symbol.section].size:
            self.refuse(section, record, f"a capability to {held}" if held != Class.CODE else "outside of its section")
        elif symbol.kind == SECTION or record.addend:
            name = f".Lcode.{len(self.labels)}"
            label = self.labels.setdefault((symbol.section, place), Symbol(name, symbol.section, place, binding=LOCAL))
            return replace(moved, symbol=label.name, addend=0)
        return moved

    def refuse(self, section: Section, record: Relocation, why: str) -> None:
        self.refused.append(Finding(at(section, record.offset), f"{told_of(self.old, record)}: {why}"))

    # -- the new object

    def written(self, symbols: list[Symbol], relocations: dict[int, list[Relocation]]) -> Converted:
        """Sections that are kept, local symbols before the others, and the relocations by the new numbers of both."""
        kept = [number for number in range(len(self.old.sections)) if self.is_kept(number)]
        section_numbers = {old: new for new, old in enumerate(kept, 1)}
        sections = []
        for number in kept:
            section, layout = self.old.sections[number], self.layouts.get(number)
            if layout:
                section = replace(section, contents=bytes(layout.contents), alignment=max(section.alignment, SLOT))
            sections.append(replace(section, link=0, info=0))
        staying = [number for number, symbol in enumerate(symbols)
                   if number and (not symbol.is_placed or symbol.section in section_numbers)]
        added = [*self.labels.values(), *self.unnamed()]
        order = [n for n in staying if symbols[n].binding == LOCAL]
        locals_count = len(order)
        order += [n for n in staying if symbols[n].binding != LOCAL]
        numbers: dict[int | str, int] = {0: 0}
        for place, number in enumerate(order, 1):
            numbers[number] = place if place <= locals_count else place + len(added)
        for place, symbol in enumerate(added, locals_count + 1):
            numbers[symbol.name] = place
        listed = [symbols[n] for n in order[:locals_count]] + added + [symbols[n] for n in order[locals_count:]]
        placed = [replace(s, section=section_numbers[s.section]) if s.is_placed else s for s in listed]
        made = {section_numbers[number]: [replace(r, symbol=numbers[r.symbol]) for r in records]
                for number, records in relocations.items() if records}
        contents = relocatable(sections, placed, made, flags=self.old.flags | PURE_CAPABILITY)
        return Converted(bytes(contents), self.warnings + plain_addresses(read_relocatable(contents)))

    def unnamed(self) -> Iterator[Symbol]:
        """Symbols for parts with slots that no symbol covers and that have to begin at a multiple of 16."""
        for number, layout in self.layouts.items():
            for start, _ in layout.unnamed:
                begin = layout.moved(start)
                yield Symbol(f".Ldata.{number}.{start:#x}", number, begin, layout.ends[start] - begin, OBJECT, LOCAL)


def convert(contents: bytes, plain: set[str] = frozenset()) -> Converted:
    o = read_relocatable(contents)
    if o.flags & PURE_CAPABILITY == PURE_CAPABILITY:
        raise Broken("of the profile already")
    return Conversion(o, plain).run()


# ---- The command line

@dataclass
class Given:
    """An object as it was named: a file, or a member of an archive."""
    told: str
    name: str
    contents: bytes


def objects_of(path: Path, takes_archives: bool) -> list[Given]:
    contents = path.read_bytes()
    if what_it_is(contents) != "an archive":
        return [Given(str(path), path.name, contents)]
    if not takes_archives:
        raise Broken("an archive: use -d FOLDER, which takes each member")
    return [Given(f"{path}({name})", name, body) for name, body in members_of(contents)]


class Run:
    """One run of the command: what it does with each object, what it says, and how many there were."""

    def __init__(self, given: argparse.Namespace) -> None:
        self.given = given
        self.taken: set[str] = set()
        self.done = self.refused = self.warned = 0

    def take(self, path: Path) -> None:
        try:
            for o in objects_of(path, not self.given.o):
                self.take_object(o)
        except (Broken, OSError) as why:
            self.refuse(str(path), [why.strerror if isinstance(why, OSError) else why])

    def take_object(self, o: Given) -> None:
        try:
            if self.given.check:
                self.check(o)
            else:
                self.convert(o)
        except Refused as refused:
            self.refuse(o.told, refused.findings)
        except Broken as broken:
            self.refuse(o.told, [broken])

    def convert(self, o: Given) -> None:
        made = convert(o.contents, set(self.given.plain))
        self.warn(o, made.warnings)
        (self.given.o or self.given.d / self.free_name(o.name)).write_bytes(made.contents)
        self.done += 1

    def check(self, o: Given) -> None:
        read = read_relocatable(o.contents)
        self.warn(o, plain_addresses(read))
        found = refusals(read)
        if read.flags & PURE_CAPABILITY != PURE_CAPABILITY:
            found.insert(0, Finding("header", "the flags of the profile are not set: not converted"))
        if found:
            self.refuse(o.told, found)
        else:
            self.done += 1

    def free_name(self, name: str) -> str:
        """A name for a member; archives may have several of one name."""
        path = Path(Path(name).name or "member")
        free, number = path.name, 1
        while free in self.taken:
            free, number = f"{path.stem}.{number}{path.suffix}", number + 1
        self.taken.add(free)
        return free

    def warn(self, o: Given, warnings: list[Finding]) -> None:
        self.warned += len(warnings)
        for warning in warnings:
            print(f"{o.told}: warning: {warning}", file=sys.stderr)

    def refuse(self, told: str, why: list[object]) -> None:
        self.refused += 1
        for finding in why:
            print(f"{told}: refused: {finding}", file=sys.stderr)


def main() -> int:
    options = argparse.ArgumentParser(description=__doc__, formatter_class=argparse.RawDescriptionHelpFormatter)
    where = options.add_mutually_exclusive_group(required=True)
    where.add_argument("-o", metavar="OUT", type=Path, help="write the one object to OUT")
    where.add_argument("-d", metavar="FOLDER", type=Path, help="write objects and members by their names into FOLDER")
    where.add_argument("--check", action="store_true", help="write nothing; status 1 where anything is left")
    options.add_argument("--plain", metavar="SECTION", action="append", default=[], help="leave its addresses plain")
    options.add_argument("files", metavar="FILE", nargs="+", type=Path)
    given = options.parse_args()
    if given.o and len(given.files) != 1:
        options.error("-o takes one object; use -d FOLDER for more")
    run = Run(given)
    for path in given.files:
        run.take(path)
    if not given.o:
        done = "in order" if given.check else "converted"
        print(f"{run.done} {done}, {run.refused} refused, {run.warned} warnings")
    return 1 if run.refused or given.check and run.warned else 0


if __name__ == "__main__":
    sys.exit(main())
