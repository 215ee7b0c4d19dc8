"""A worked row: files, and runs of the program in their folder, each with all that it must answer."""
import os
import resource
import subprocess
import tempfile
from collections.abc import Callable
from dataclasses import dataclass, field
from pathlib import Path

from objects import Sparse

Words = str | list[str | bytes]


class Wrong(Exception):
    """The program answered otherwise."""


@dataclass
class Holds:
    """What a file has at some places, and its length where that is stated."""
    places: dict[int, bytes] = field(default_factory=dict)
    length: int | None = None

    def compare(self, path: Path) -> None:
        size = path.stat().st_size
        if self.length is not None and size != self.length:
            raise Wrong(f"{path.name} has {size} bytes in place of {self.length}")
        with path.open("rb") as file:
            for at, wanted in self.places.items():
                file.seek(at)
                same_bytes(path.name, at, file.read(len(wanted)), wanted)


@dataclass
class Run:
    """One run. The fault lines stand without the program's name, a line each. `created` has each file that is made."""
    words: Words
    status: int = 0
    out: str = ""
    err: str = ""
    created: dict[str, bytes | Holds] = field(default_factory=dict)
    stdout: str | None = None                # where standard output goes
    longest_file: int | None = None          # no file can become longer
    failing_call: int | None = None          # the number of the call of the system that fails
    shortest_calls: int | None = None        # a read or write moves this many bytes at most
    interrupted_calls: bool = False          # a signal interrupts each second call of open, read and write

    @property
    def is_interposed(self) -> bool:
        return self.failing_call is not None or self.shortest_calls is not None or self.interrupted_calls


@dataclass
class Row:
    shows: str
    files: dict[str, bytes | Sparse]
    runs: list[Run]


def same_bytes(name: str, at: int, found: bytes, wanted: bytes) -> None:
    if found == wanted:
        return
    first = next((i for i, (a, b) in enumerate(zip(found, wanted)) if a != b), min(len(found), len(wanted)))
    raise Wrong(f"{name} at {at + first:#x}: {found[first:first + 16].hex(' ')} in place of "
                f"{wanted[first:first + 16].hex(' ')}")


def limit_files(most: int) -> Callable[[], None]:
    """A write past the limit fails, since Python ignores its signal and hands that on."""
    return lambda: resource.setrlimit(resource.RLIMIT_FSIZE, (most, most))


def lay_out(files: dict[str, bytes | Sparse], folder: Path) -> None:
    for name, contents in files.items():
        path = folder / name
        path.parent.mkdir(parents=True, exist_ok=True)
        if name.endswith("/"):
            path.mkdir(exist_ok=True)
        elif isinstance(contents, Sparse):
            path.write_bytes(contents.front)
            os.truncate(path, contents.size)
        else:
            path.write_bytes(contents)


def states(folder: Path) -> dict[str, tuple[int, int, int]]:
    """What tells a file that was written from one that wasn't."""
    found = {}
    for path in folder.rglob("*"):
        if path.is_file():
            state = path.stat()
            found[str(path.relative_to(folder))] = (state.st_ino, state.st_size, state.st_mtime_ns)
    return found


def compare_text(what: str, found: bytes, wanted: str) -> None:
    got, asked = found.decode("latin-1").split("\n"), wanted.split("\n")
    for line, (a, b) in enumerate(zip(got + [""] * len(asked), asked + [""] * len(got)), 1):
        if a != b:
            raise Wrong(f"{what}, line {line}: {a!r} in place of {b!r}")


def lines(text: str) -> str:
    return "".join(f"purecap: {line}\n" for line in text.splitlines())


class Tester:
    def __init__(self, program: Path, interposed: Path | None) -> None:
        self.program = program
        self.interposed = interposed

    def can_run(self, row: Row) -> bool:
        return self.interposed is not None or not any(run.is_interposed for run in row.runs)

    def try_row(self, row: Row) -> None:
        with tempfile.TemporaryDirectory() as name:
            folder = Path(name)
            lay_out(row.files, folder)
            for run in row.runs:
                try:
                    self.try_run(run, folder)
                except Wrong as wrong:
                    raise Wrong(f"{shown(run.words)}: {wrong}") from None

    def try_run(self, run: Run, folder: Path) -> None:
        before = states(folder)
        words = run.words.split() if isinstance(run.words, str) else run.words
        stdout = open(run.stdout, "wb") if run.stdout else subprocess.PIPE
        environment = dict(os.environ)
        if run.is_interposed:
            environment |= {"LD_PRELOAD": str(self.interposed), "FAILING_CALL": str(run.failing_call or 0),
                            "SHORTEST_CALLS": str(run.shortest_calls or 0),
                            "INTERRUPTED_CALLS": str(int(run.interrupted_calls))}
        ended = subprocess.run([self.program, *words], cwd=folder, env=environment, stdin=subprocess.DEVNULL,
                               stdout=stdout, stderr=subprocess.PIPE, timeout=120, restore_signals=False,
                               preexec_fn=limit_files(run.longest_file) if run.longest_file else None)
        if ended.returncode != run.status:
            raise Wrong(f"status {ended.returncode} in place of {run.status}, {ended.stderr.decode('latin-1')!r}")
        compare_text("error output", ended.stderr, lines(run.err))
        if not run.stdout:
            compare_text("standard output", ended.stdout, run.out)
        after = states(folder)
        created = {file for file, state in after.items() if before.get(file) != state}
        if created != set(run.created):
            raise Wrong(f"created {sorted(created)} in place of {sorted(run.created)}")
        for file, wanted in run.created.items():
            if isinstance(wanted, Holds):
                wanted.compare(folder / file)
            else:
                same_bytes(file, 0, (folder / file).read_bytes(), wanted)


def shown(words: Words) -> str:
    text = words if isinstance(words, str) else " ".join(w if isinstance(w, str) else repr(w) for w in words)
    return text if len(text) <= 80 else text[:77] + "..."
