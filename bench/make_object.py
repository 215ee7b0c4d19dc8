#!/usr/bin/env python3
"""Writes a shared object with so many symbols: make_object.py SYMBOLS FILE.

It has one segment with the symbol table, the hash table, the names and the dynamic section; the symbols are data of
eight bytes, all exported, with names of about twenty characters."""
import sys
from pathlib import Path

sys.path.insert(0, str(Path(__file__).resolve().parent.parent / "tools"))
from elf import (DYNAMIC, HASH, LOAD, NULL_TAG, SHARED, STRINGS, STRINGS_SIZE, SYMBOLS, SYMBOL_SIZE, Strings, Symbol,
                 OBJECT, file_header, hash_words, program_header, symbol_bytes, tag_bytes, u32, up)  # noqa: E402

READ_WRITE = 6


def shared_object(count: int) -> bytes:
    names = [f"library_symbol_{i:06d}" for i in range(1, count)]
    strings = Strings()
    symbols = bytes(24) + b"".join(
        symbol_bytes(strings.place(name), Symbol(name, value=8 * i % 4096, size=8, kind=OBJECT), 1)
        for i, name in enumerate(names))
    words = u32(*hash_words([name.encode() for name in names]))
    symbols_at = 64 + 2 * 56
    hash_at = symbols_at + len(symbols)
    strings_at = hash_at + len(words)
    dynamic_at = up(strings_at + len(strings.contents), 16)
    dynamic = tag_bytes([(HASH, hash_at), (STRINGS, strings_at), (SYMBOLS, symbols_at),
                         (STRINGS_SIZE, len(strings.contents)), (SYMBOL_SIZE, 24), (NULL_TAG, 0)])
    end = dynamic_at + len(dynamic)
    headers = (file_header(SHARED, 2, 0, 0) + program_header(LOAD, READ_WRITE, 0, end, end, 4096)
               + program_header(DYNAMIC, READ_WRITE, dynamic_at, len(dynamic), len(dynamic), 16))
    return (headers + symbols + words + strings.contents).ljust(dynamic_at, b"\0") + dynamic


if __name__ == "__main__":
    Path(sys.argv[2]).write_bytes(shared_object(int(sys.argv[1])))
