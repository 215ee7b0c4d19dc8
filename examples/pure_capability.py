#!/usr/bin/env python3
"""Sets the two flag bits of the pure-capability profile in the headers of ELF files: pure_capability.py FILE...

No compiler or linker of a distribution sets them. The flags are the four bytes at offset 48 of a 64-bit file."""
import struct
import sys
from pathlib import Path

FLAGS_AT = 48
PURE_CAPABILITY = 0x30000


def mark(path: Path) -> None:
    with path.open("r+b") as file:
        file.seek(FLAGS_AT)
        flags = struct.unpack("<I", file.read(4))[0]
        file.seek(FLAGS_AT)
        file.write(struct.pack("<I", flags | PURE_CAPABILITY))


if __name__ == "__main__":
    for name in sys.argv[1:]:
        mark(Path(name))
