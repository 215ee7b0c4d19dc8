"""Runs commands for the measurements, and tells what they took. For Linux."""
import ctypes
import os
import signal
import sys
import tempfile
import time
from collections.abc import Sequence
from dataclasses import dataclass
from pathlib import Path

ADOPT_ORPHANS = 36  # PR_SET_CHILD_SUBREAPER of prctl
START = 'cd "$0" && ulimit -St "$1" && shift && { "$@" & }'

Command = Sequence[str | Path]


@dataclass(frozen=True)
class Spent:
    """Seconds, and bytes of memory at the peak."""
    wall: float
    user: float
    system: float
    peak: int

    @property
    def processor(self) -> float:
        return self.user + self.system


def run(command: Command, folder: str | Path = ".", output: str | Path = os.devnull,
        most: int | None = None) -> Spent | None:
    """What a command takes in a folder, its standard output in a file. None where it took more than `most` seconds of
    the processor and was ended. A status other than 0 ends the measurement.

    A shell starts it, and is gone at once: the peak of a process counts the memory of the one that started it, and this
    one may have much. What the command leaves running is waited for and counted, but not in the wall time."""
    ctypes.CDLL(None).prctl(ADOPT_ORPHANS, 1)
    wall, user, system, peak = 0.0, 0.0, 0.0, 0
    with tempfile.TemporaryFile() as errors, open(output, "wb") as out:
        begin = time.perf_counter()
        shell = os.posix_spawnp("sh", ["sh", "-c", START, str(folder), str(most or "unlimited"), *map(str, command)],
                                os.environ, file_actions=[(os.POSIX_SPAWN_DUP2, out.fileno(), 1),
                                                          (os.POSIX_SPAWN_DUP2, errors.fileno(), 2)])
        while True:
            try:
                child, status, usage = os.wait4(-1, 0)
            except ChildProcessError:
                return Spent(wall, user, system, peak)
            if child != shell:
                wall = wall or time.perf_counter() - begin
                user, system = user + usage.ru_utime, system + usage.ru_stime
                peak = max(peak, usage.ru_maxrss * 1024)
            if os.WIFSIGNALED(status) and os.WTERMSIG(status) == signal.SIGXCPU:
                return None
            if status:
                errors.seek(0)
                told = errors.read(1000).decode(errors="replace")
                sys.exit(f"{' '.join(map(str, command))}: status {os.waitstatus_to_exitcode(status)}\n{told}")


def best(taken: list[Spent]) -> Spent:
    """The least times and the greatest peak."""
    return Spent(min(s.wall for s in taken), min(s.user for s in taken), min(s.system for s in taken),
                 max(s.peak for s in taken))


def in_turns(commands: dict[str, Command], runs: int, folder: str | Path = ".",
             outputs: dict[str, Path] | None = None, most: int | None = None) -> dict[str, Spent | None]:
    """The best of so many runs of each command, or None as in `run`. They take turns, so that what else the machine
    does falls on all alike."""
    taken: dict[str, list[Spent | None]] = {name: [] for name in commands}
    for _ in range(runs):
        for name, command in commands.items():
            if None not in taken[name]:
                taken[name].append(run(command, folder, (outputs or {}).get(name, os.devnull), most))
    return {name: None if None in spent else best(spent) for name, spent in taken.items()}
