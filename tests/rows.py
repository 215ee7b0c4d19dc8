#!/usr/bin/env python3
"""Runs the built program on worked rows and compares all that it answers: rows.py --bin PROGRAM [TEXT].

With TEXT only the rows whose name has it. A row makes its files in a folder of its own; its runs there must have the
stated status, standard output and error output, and make the stated files and no other."""
import argparse
import shutil
import subprocess
import sys
import tempfile
import traceback
from pathlib import Path

import audit_rows
import demo_rows
import init_rows
import linking_rows
import loading_rows
import object_rows
import outside_rows
import reach_rows
import shared_object_rows
import showing_rows
import users_case
import word_rows
from row import Tester, Wrong

TABLES = [users_case, linking_rows, loading_rows, showing_rows, object_rows, shared_object_rows, word_rows,
          demo_rows, init_rows, reach_rows, audit_rows, outside_rows]
HERE = Path(__file__).resolve().parent


def interposer(folder: Path) -> Path | None:
    """The library that makes calls of the system fail, where there is a C compiler."""
    compiler = shutil.which("cc") or shutil.which("gcc") or shutil.which("clang")
    if compiler is None:
        return None
    made = folder / "interposed.so"
    subprocess.run([compiler, "-shared", "-fPIC", "-O1", "-o", made, HERE / "interposed.c", "-ldl"], check=True)
    return made


def main() -> None:
    arguments = argparse.ArgumentParser(description=__doc__, formatter_class=argparse.RawDescriptionHelpFormatter)
    arguments.add_argument("--bin", required=True)
    arguments.add_argument("text", nargs="?", default="")
    given = arguments.parse_args()
    passed = skipped = wrong = 0
    with tempfile.TemporaryDirectory() as folder:
        tester = Tester(Path(given.bin).resolve(), interposer(Path(folder)))
        for row in [row for table in TABLES for row in table.ROWS if given.text in row.shows]:
            if not tester.can_run(row):
                skipped += 1
                continue
            try:
                tester.try_row(row)
                passed += 1
            except Wrong as difference:
                wrong += 1
                print(f"{row.shows}: {difference}")
            except Exception:
                wrong += 1
                print(f"{row.shows}:\n{traceback.format_exc()}")
    print(f"{passed} rows passed, {wrong} didn't" + (f"; no C compiler: {skipped} skipped" if skipped else ""))
    sys.exit(1 if wrong or not passed else 0)


if __name__ == "__main__":
    main()
