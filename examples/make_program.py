#!/usr/bin/env python3
"""Writes a program, the library that it needs, and a library that it opens later: make_program.py FOLDER.

The program has a table of two capabilities, one to its own text and one to a counter, and calls a function of the
library. The library that is opened later counts in the program's counter and knows the library's greeting."""
import sys
from pathlib import Path

from shared_object import (FUNCTION, NOTYPE, READ_ONLY_ENTRY, Entry, Relocation, SharedObject, Symbol, written)

NOP = b"\x13\0\0\0"

app = SharedObject(
    text=NOP * 8 + b"hello\0",
    data=bytes(64) + bytes(16),
    symbols=[Symbol("_start", ("text", 0), 32, FUNCTION), Symbol("table", ("data", 0), 32),
             Symbol("counter", ("data", 64), 8), Symbol("greet", kind=NOTYPE)],
    entries=[Entry(("data", 0), ("text", 32), 0, 6, READ_ONLY_ENTRY), Entry(("data", 16), ("data", 64), 0, 8)],
    relocations=[Relocation(("data", 32), 4)],
    needed=["libgreet.so"],
)

libgreet = SharedObject(
    text=NOP * 4,
    data=b"greetings\0".ljust(16, b"\0"),
    symbols=[Symbol("greet", ("text", 0), 16, FUNCTION), Symbol("greeting", ("data", 0), 10)],
    soname="libgreet.so",
)

libplugin = SharedObject(
    text=NOP * 4,
    data=bytes(48),
    symbols=[Symbol("plug_in", ("text", 0), 16, FUNCTION), Symbol("counter", kind=NOTYPE),
             Symbol("greeting", kind=NOTYPE), Symbol("greet", kind=NOTYPE)],
    relocations=[Relocation(("data", 0), 2), Relocation(("data", 16), 3, 4), Relocation(("data", 32), 4)],
    needed=["libgreet.so"],
    soname="libplugin.so",
)

if __name__ == "__main__":
    folder = Path(sys.argv[1])
    for name, made in [("app", app), ("libgreet.so", libgreet), ("libplugin.so", libplugin)]:
        folder.joinpath(name).write_bytes(written(made))
