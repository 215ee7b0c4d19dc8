#!/usr/bin/env python3
"""Refuses each allocation of a run in turn, and of a long run some hundred: refused_memory.py PROGRAM.

The program must answer as it does with ample memory, or 12; then it has created no file, and says that memory ran out
behind what it had told. It says nothing where the words themselves did not fit. A library of the C compiler that is
loaded before the others refuses the allocation of the number that it is told. Skipped where there is no C compiler."""
import os
import shutil
import subprocess
import sys
import tempfile
from pathlib import Path

EXAMPLES = Path(__file__).resolve().parent.parent / "examples"
sys.path.insert(0, str(EXAMPLES))
from make_program import NOP, app, libgreet, libplugin  # noqa: E402
from shared_object import FUNCTION_ENTRY, NOTYPE, Relocation, SharedObject, Symbol, written  # noqa: E402
import objects  # noqa: E402
from objects import CALL, COMMON, data, function, relocatable, text, thing, zeros  # noqa: E402

REFUSER = r"""
#define _GNU_SOURCE
#include <dlfcn.h>
#include <errno.h>
#include <stdio.h>
#include <stdlib.h>
static long count, refused;
static int is_refused(void) {
    if (!refused) { const char *given = getenv("REFUSED"); refused = given ? atol(given) : -1; }
    return ++count == refused;
}
void *malloc(size_t n) {
    static void *(*real)(size_t);
    if (!real) real = dlsym(RTLD_NEXT, "malloc");
    if (is_refused()) { errno = ENOMEM; return 0; }
    return real(n);
}
void *realloc(void *old, size_t n) {
    static void *(*real)(void *, size_t);
    if (!real) real = dlsym(RTLD_NEXT, "realloc");
    if (is_refused()) { errno = ENOMEM; return 0; }
    return real(old, n);
}
__attribute__((destructor)) static void tell(void) {
    const char *name = getenv("COUNTED");
    FILE *file = name ? fopen(name, "w") : 0;
    if (file) { fprintf(file, "%ld", count); fclose(file); }
}
"""

bad = SharedObject(data=bytes(16), symbols=[Symbol("gone", kind=NOTYPE)], relocations=[Relocation(("data", 0), 1)])
first = relocatable(
    [text(NOP * 8), data(bytes(16))],
    [function("_start", ".text", 0, 32), thing("table", ".data", 0, 16), objects.Symbol("helper"), objects.Symbol("count")],
    {".text": [objects.Relocation(8, "helper", kind=CALL)], ".data": [objects.Relocation(0, "count")]})
second = relocatable(
    [text(NOP), zeros(5001)],
    [function("helper", ".text", 0, 4), thing("count", COMMON, 8, 8), thing("buffer", ".bss", 0, 5001)])
starting = objects.shared(
    entries=[(0x2000, 0x1000, 0, 0, FUNCTION_ENTRY), (0x2010, 0x1004, 0, 0, FUNCTION_ENTRY)], needed=["libgreet.so"],
    more_tags=[(objects.INIT, 0x2000), (objects.INIT_SIZE, 32)])
words = [objects.Word(at, at + 16, objects.metadata(at + 16, 16, 0x7D)) for at in range(0x40000000, 0x40000FF0, 16)]
chain = objects.image([objects.Mapped(0x40000000, "a", bytes(4096), words)])
OBJECTS = {"app": written(app), "libgreet.so": written(libgreet), "libplugin.so": written(libplugin),
           "libbad.so": written(bad), "first.o": first, "second.o": second, "starting": starting, "chain.img": chain}
OUT_OF_MEMORY = b"purecap: out of memory\n"
RUNS = ["load -o app.img app open:libplugin.so", "load -o app.img app open:libplugin.so open:libbad.so",
        "load -o app.img app try:libbad.so open:libplugin.so", "link -o app.img first.o second.o",
        "link -o app.img --shared first first.o second.o libgreet.so", "show shown.img", "demo 1",
        "init starting try:libbad.so", "reach chain.img 0x40000000", "audit shown.img app open:libplugin.so",
        "audit shown.img app try:libbad.so"]


def main() -> None:
    program = str(Path(sys.argv[1]).resolve())
    compiler = shutil.which("cc") or shutil.which("gcc") or shutil.which("clang")
    if not compiler:
        print("no C compiler: skipped")
        return
    wrong = 0
    with tempfile.TemporaryDirectory() as name:
        folder = Path(name)
        folder.joinpath("refuser.c").write_text(REFUSER)
        refuser = folder / "refuser.so"
        subprocess.run([compiler, "-shared", "-fPIC", "-O2", "-o", str(refuser), str(folder / "refuser.c"), "-ldl"], check=True)
        for file, made in OBJECTS.items():
            folder.joinpath(file).write_bytes(made)
        image = folder / "app.img"

        def run(words: str, refused: int) -> tuple[int, bytes, bytes, bytes | None]:
            image.unlink(missing_ok=True)
            given = dict(os.environ, LD_PRELOAD=str(refuser), REFUSED=str(refused), COUNTED=str(folder / "counted"))
            ended = subprocess.run([program, *words.split()], cwd=folder, env=given, capture_output=True)
            return ended.returncode, ended.stdout, ended.stderr, image.read_bytes() if image.exists() else None

        made = run(RUNS[0], -1)
        folder.joinpath("shown.img").write_bytes(made[3] or b"")
        for words in RUNS:
            ample = run(words, -1)
            total = int(folder.joinpath("counted").read_text())
            same = starved = 0
            passed_over = ample[2].splitlines(True)[:None if ample[0] == 0 else -1]
            lines = {b"", OUT_OF_MEMORY, b"".join(passed_over) + OUT_OF_MEMORY}
            step = 1 + total // 400
            for refused in range(1, total + 1, step):
                ended = run(words, refused)
                if ended == ample:
                    same += 1
                elif ended[0] == 12 and ended[1] == b"" and ended[2] in lines and ended[3] is None:
                    starved += 1
                else:
                    wrong += 1
                    print(f"{words}, allocation {refused}: status {ended[0]}, {ended[2]!r}")
            print(f"{words}: status {ample[0]}; of {total} allocations {starved + same} refused in turn, {starved} gave 12 "
                  f"and {same} changed nothing")
    sys.exit(1 if wrong else 0)


if __name__ == "__main__":
    main()
