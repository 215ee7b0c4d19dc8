#!/usr/bin/env python3
"""Runs commands of `purecap` before it is proved: compiles the source as it stands, once, and runs each command.

    unproved.py < COMMANDS        on each line a command, as `link -o app main.o`

It takes a minute or two, needs the kit's `rt`, and PROVES NOTHING: .ci/run does, and leaves the program. Options and
their values are words of their own here. Each command runs in a new folder, so paths are made absolute first; in an
image the main object then has its whole path as its name. The status is 0 where each command's is."""
import argparse
import os
import re
import shlex
import subprocess
import sys
import tempfile
from pathlib import Path

PROGRAM = Path(__file__).resolve().parent.parent / "crates" / "purecap"
HAS_CALLS = ("load", "init", "audit")
NO_PATH = re.compile(r"-|(open|global|try):|0x[0-9a-f]+$")
ENDED = re.compile(r"case=(\d+) run=ended status=(\d+) ")


def absolute(words: list[str]) -> list[str]:
    """The words with absolute paths, and with the current folder as that of libraries where none is given."""
    command, rest = words[0], words[1:]
    if command == "demo":
        return words
    made = [command]
    if command in HAS_CALLS and "-L" not in rest:
        made += ["-L", os.getcwd()]
    for before, word in zip(words, rest):
        made.append(word if before == "--shared" or NO_PATH.match(word) else os.path.abspath(word))
    return made


def tried(commands: list[list[str]]) -> str:
    """What `rt try` prints of all commands: below a line `== NUMBER` what each printed, and then a line of its end."""
    with tempfile.TemporaryDirectory() as folder:
        for number, words in enumerate(commands):
            Path(folder, f"{number:02}").touch()
            Path(folder, f"{number:02}.args").write_text("".join(word + "\n" for word in absolute(words)))
        try:
            return subprocess.run(["rt", "try", "--cases", folder], cwd=PROGRAM, stdout=subprocess.PIPE,
                                  stderr=subprocess.STDOUT, text=True).stdout
        except FileNotFoundError:
            sys.exit("no rt: this needs the Rattle kit")


def main() -> int:
    argparse.ArgumentParser(description=__doc__, formatter_class=argparse.RawDescriptionHelpFormatter).parse_args()
    commands = [words for line in sys.stdin if (words := shlex.split(line, comments=True))]
    statuses = []
    for line in tried(commands).splitlines():
        ended = ENDED.match(line)
        if re.fullmatch(r"== \d+", line):
            print("$ purecap", shlex.join(commands[int(line[3:])]))
        elif ended:
            statuses.append(int(ended[2]))
            print(f"status {ended[2]}\n" if statuses[-1] else "", end="")
        elif not line.startswith("cases="):
            print(line)
    return 0 if statuses == [0] * len(commands) else 1


if __name__ == "__main__":
    sys.exit(main())
