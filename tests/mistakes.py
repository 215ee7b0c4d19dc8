#!/usr/bin/env python3
"""Makes the mistakes of docs/FAULTS.md, and compares what the program says with the table there; and looks whether each
text of a check stands in that document.

    tests/mistakes.py PROGRAM"""
import re
import shlex
import subprocess
import sys
import tempfile
from pathlib import Path

ROOT = Path(__file__).resolve().parent.parent
sys.path[:0] = [str(ROOT / "tools"), str(ROOT / "examples")]
from elf import FLAGS_AT, u16, u32  # noqa: E402
from make_objects import OBJECTS  # noqa: E402

MACHINE_AT, X86_64 = 18, 62
MAIN, COUNTER = OBJECTS["main.o"], OBJECTS["counter.o"]
MEMBER = b"counter.o/".ljust(16) + b"0".ljust(12) + b"0".ljust(6) + b"0".ljust(6) + b"644".ljust(8)
FILES = OBJECTS | {
    "other.o": COUNTER,
    "plain.o": MAIN.but({FLAGS_AT: u32(0)}),
    "x86.o": MAIN.but({MACHINE_AT: u16(X86_64)}),
    "libcounter.a": b"!<arch>\n" + MEMBER + str(len(COUNTER)).encode().ljust(10) + b"`\n" + COUNTER,
    "libc.so": b"/* GNU ld script */\nOUTPUT_FORMAT(elf64-littleriscv)\nGROUP ( libc.so.6 libc_nonshared.a )\n",
    "bitcode.o": b"BC\xc0\xde" + bytes(96),
    "empty.o": b"",
}
BEFORE = ["link -o libgreet.so --shared libgreet.so greet.o",
          "link -o libplugin.so --shared libplugin.so plugin.o libgreet.so", "link -o app main.o counter.o libgreet.so"]
ROW = re.compile(r"\| ([^|]+) \| `([^`]+)` \| (\d+) \| (?:`([^`]+)`|-) \|")


FAULTS = ROOT.joinpath("docs", "FAULTS.md").read_text()
CHECKS = ROOT.joinpath("crates", "cap_base", "src", "check.rt").read_text()


def unexplained() -> list[str]:
    return [text for text in re.findall(r'"([^"]+)"', CHECKS) if f"`{text}`" not in FAULTS
            and f"`limit {text}`" not in FAULTS]


def rows() -> list[tuple[str, str, int, str]]:
    section = FAULTS.split("## Fifteen mistakes")[1].split("\n## ")[0]
    return [(name, command, int(status), line or "") for name, command, status, line in ROW.findall(section)]


def run(program: Path, folder: str, command: str) -> tuple[int, str]:
    ended = subprocess.run([program, *shlex.split(command)], cwd=folder, stdin=subprocess.DEVNULL, capture_output=True,
                           timeout=60)
    return ended.returncode, ended.stderr.decode("latin-1").strip()


def said(program: Path, command: str) -> tuple[int, str]:
    """The status and the line of a command, in a folder of its own with all files."""
    with tempfile.TemporaryDirectory() as folder:
        for file, contents in FILES.items():
            Path(folder, file).write_bytes(contents)
        Path(folder, "folder").mkdir()
        for before in BEFORE:
            status, line = run(program, folder, before)
            if status:
                sys.exit(f"{before}: status {status}, '{line}'")
        return run(program, folder, command)


def main() -> int:
    if len(sys.argv) != 2 or sys.argv[1].startswith("-"):
        print(__doc__)
        return 2
    program, wrong, made = Path(sys.argv[1]).resolve(), 0, rows()
    for text in unexplained():
        print(f"docs/FAULTS.md doesn't say what '{text}' means")
    for name, command, status, line in made:
        ended = said(program, command)
        if ended != (status, line):
            print(f"{name}: {command}: status {ended[0]}, '{ended[1]}', in place of {status}, '{line}'")
            wrong += 1
    print(f"mistakes: {len(made) - wrong} of {len(made)} are told as docs/FAULTS.md has them")
    return 1 if wrong or unexplained() or len(made) != 15 else 0


if __name__ == "__main__":
    sys.exit(main())
