"""Rows of `demo`: summaries of generated objects, and numbers that it does not take.

The lines come from a model that was written apart from the program."""
from row import Row, Run

SUMMARIES = [
    ("0", 2427311, 0x821D387A7B), ("1", 2381956, 0x821CF593C1), ("7", 2452138, 0x82200604D6),
    ("123456", 2369613, 0x821E687914), ("4294967295", 2435595, 0x821DF04103)]
BAD_NUMBERS: list[tuple[str, list[str | bytes]]] = [
    ("a leading zero", ["01"]), ("two zeros", ["00"]), ("2^32", ["4294967296"]),
    ("a number of many digits", ["99999999999999999999"]), ("an empty word", [""]), ("a plus", ["+1"]),
    ("a minus", ["-1"]), ("a minus behind the end of options", ["--", "-1"]), ("a space behind it", ["1 "]),
    ("an exponent", ["1e3"]), ("base 16", ["0x1"]), ("a letter", ["a"]), ("digits beyond ASCII", ["\u0663"]),
    ("a number that isn't UTF-8", [b"\xff"]), ("no number", []), ("two numbers", ["1", "2"]), ("help", ["--help"])]


def summary(number: str, size: int, total: int) -> str:
    return f"demo {number}\nobjects 3 words 520\nimage {size} sum {total:#018x}\n"


ROWS = [
    *(Row("demo: " + number, {}, [Run("demo " + number, out=summary(number, size, total))])
      for number, size, total in SUMMARIES),
    Row("demo: files of the folder are left alone", {"d0.o": b"", "d": b"", "d.so": b"", "e.so": b""}, [
        Run("demo -- 0", out=summary(*SUMMARIES[0]))]),
    Row("demo: a summary that can't be written", {}, [Run("demo 0", 11, err="-: write fault", stdout="/dev/full")]),
    *(Row("demo: " + shows, {}, [Run(["demo", *words], 2, err="usage")]) for shows, words in BAD_NUMBERS),
]
