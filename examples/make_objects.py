#!/usr/bin/env python3
"""Writes the relocatable objects of a program and of two libraries, as a compiler would: make_objects.py FOLDER.

The program has a table of two capabilities, one to a text and one to a counter, and calls a function of the library
`greet`. The library `plugin`, which is opened later, counts in the program's counter and knows the library's greeting."""
import sys
from pathlib import Path

sys.path.insert(0, str(Path(__file__).resolve().parent.parent / "tools"))
from elf import (ALLOCATED, CALL, LOCAL, OBJECT, PCREL_LOW, TABLE_HIGH, Relocation, Section, Symbol, data, function, label,
                 relocatable, text, thing, u32)  # noqa: E402

NOP = u32(0x13)
CALL_PLACE = u32(0x97, 0x80E7)  # auipc ra, 0; jalr ra, ra, 0: filled in by the linker

OBJECTS = {
    "main.o": relocatable(
        [text(NOP * 2 + CALL_PLACE + NOP * 4), Section(".rodata", b"hello\0", ALLOCATED), data(bytes(32))],
        [Symbol("message", ".rodata", 0, 6, OBJECT, LOCAL), label("here", 0), function("_start", ".text", 0, 32),
         thing("table", ".data", 0, 32), Symbol("counter"), Symbol("greet")],
        {".text": [Relocation(0, "table", kind=TABLE_HIGH), Relocation(4, "here", kind=PCREL_LOW),
                   Relocation(8, "greet", kind=CALL)],
         ".data": [Relocation(0, "message"), Relocation(16, "counter")]}),
    "counter.o": relocatable([data(bytes(8), alignment=8)], [thing("counter", ".data", 0, 8)]),
    "greet.o": relocatable(
        [text(NOP * 4), data(b"greetings\0".ljust(5001, b"."), alignment=1)],
        [function("greet", ".text", 0, 16), thing("greeting", ".data", 0, 5001)]),
    "plugin.o": relocatable(
        [text(NOP * 4), data(bytes(48))],
        [function("plug_in", ".text", 0, 16), thing("uses", ".data", 0, 48), Symbol("counter"), Symbol("greeting"),
         Symbol("greet")],
        {".data": [Relocation(0, "counter"), Relocation(16, "greeting", 4), Relocation(32, "greet")]}),
}

if __name__ == "__main__":
    for name, contents in OBJECTS.items():
        Path(sys.argv[1]).joinpath(name).write_bytes(contents)
