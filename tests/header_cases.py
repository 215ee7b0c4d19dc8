"""What is false in an ELF header of either kind of object: name, the changed bytes, the class of the refusal, its text and
its offset."""
from objects import u16, u32

M, U = "malformed", "unsupported"

HEADER_CASES: list[tuple[str, dict[int, bytes], str, str, int]] = [
    ("another magic number", {0: b"\x7eELF"}, M, "magic", 0),
    ("32 bits", {4: b"\1"}, U, "class", 4),
    ("the other byte order", {5: b"\2"}, U, "byte order", 5),
    ("another version in front", {6: b"\0"}, M, "ident version", 6),
    ("another machine", {18: u16(62)}, U, "machine", 18),
    ("another version of the file", {20: u32(2)}, M, "file version", 20),
]
