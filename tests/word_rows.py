"""Rows of the command line: which words a command takes, and the limits of words."""
from objects import Mapped, image, shared
from row import Holds, Row, Run
from users_case import h_o

FILES = {"m": shared(), "x.so": shared(), "a.o": h_o,
         "i": image([Mapped(0x40000000, "m", bytes(4096), [])]), "-i": image([]),
         "whole": image([Mapped(0x40000000, "m", shared(), [])])}
REPORT = "object 0x0000000040000000 0x0000000000001000 m\nobjects 1 words 0\n"

USAGE = [
    "", "show", "show i i", "show -i", "show --help", "show -h", "show i -- --", "frob", "help", "--help", "-h",
    "load m", "load -o out", "load -o= m", "load -o out -o out m", "load -o -- m", "load -o out -L= m",
    "load -o out -L", "load -o out -L . -L . m", "load open:x.so m -o out", "load -o out m x.so",
    "load -o out m OPEN:x.so", "load -o out m open:", "load -o out m global:a/b", "load -o out m close:x.so",
    "load -o out m lazy:x.so", "load -o out --first-found --first-found m", "load -o out --first-found=true m",
    "load -o out --first m", "link -o out", "link a.o", "link -o out --shared= a.o", "link -o out --shared a/b a.o",
    "link -o out a.o --shared", "link -o out --share s a.o", "link -o out -s s a.o",
    "init", "init -L", "init -L m", "init -L= m", "init -L . -L . m", "init -o out m", "init m x.so", "init m open:",
    "init m OPEN:x.so", "init m shut:x.so", "init m open:a/b", "init -- m -L .", "init --first-found --first-found m",
    "init --first-found=true m", "init --first m", "init -h", "init m --help", "Init m",
    "reach", "reach i", "reach 0x0", "reach i 0x0 0x0", "reach 0x0 i", "reach i 0", "reach i 40000000", "reach i 0x",
    "reach i x0", "reach i 0X0", "reach i 0xA", "reach i 0x4000000g", "reach i 0x4000_0000", "reach i 0x0.",
    "reach i +0x0", "reach i -0x0", "reach i -- -0x0", "reach i 0x00000000040000000", "reach i 0x10000000000000000",
    "reach i 0x0x0", "reach i 0b0", "reach i 0o0", "reach i 0x0h", "reach -L . i 0x0", "reach -i 0x0", "reach i --slot 0x0", "reach -h",
    "reach i 0x0 --help",
    "audit", "audit whole", "audit -- whole", "audit whole -L m", "audit whole -L= m", "audit -L . -L . whole m",
    "audit -o out whole m", "audit whole m x.so", "audit whole m try:", "audit whole m OPEN:x.so",
    "audit whole open:x.so m", "audit whole m open:a/b", "audit --first-found --first-found whole m",
    "audit whole m --first-found=true", "audit whole m --first", "audit -i m", "audit --help", "audit whole m -h"]
LOADED = [
    "load m -o out", "load -oout m", "load -o=out m", "load -o out m -L .", "load -o out -L. m", "load -o out -L=. m",
    "load -o out m open:x.so", "load m open:x.so -o out global:x.so", "load -o out -- m open:x.so",
    "load -o out m try:x.so", "load --first-found -o out m", "load -o out m --first-found"]
LINKED = ["link -o out a.o", "link a.o -o out", "link -o out --shared s a.o", "link -o out --shared=s a.o"]
SHOWN = [("show i", REPORT), ("show i --", REPORT), ("show ./i", REPORT), ("show -- -i", "objects 0 words 0\n")]
CALLED = [
    "init m", "init ./m", "init -- m", "init -L . m", "init m -L.", "init -L=. m", "init m open:x.so",
    "init m open:x.so -L . global:x.so", "init -- m open:x.so", "init m try:x.so --first-found", "init --first-found m"]
ASKED = [
    ("reach i 0x0", "i: no tagged word at 0x0"), ("reach -- i 0x0", "i: no tagged word at 0x0"),
    ("reach i -- 0x0", "i: no tagged word at 0x0"), ("reach ./i 0x40000000", "./i: no tagged word at 0x40000000"),
    ("reach i 0x0000000000000000", "i: no tagged word at 0x0"),
    ("reach i 0x00000000000000a", "i: no tagged word at 0xa"),
    ("reach i 0xfedcba9876543210", "i: no tagged word at 0xfedcba9876543210"),
    ("reach -- -i 0x1", "-i: no tagged word at 0x1")]
AUDITED = [
    "audit whole m", "audit -- whole m", "audit whole -- m", "audit ./whole m", "audit -L . whole m",
    "audit whole -L. m", "audit whole m -L=.", "audit --first-found whole m", "audit whole m --first-found",
    "audit whole --first-found m -L ."]
LONG = "p" * 256

BAD_WORDS: list[tuple[str, list[str | bytes]]] = [
    ("a path that isn't UTF-8", ["show", b"\xff"]),
    ("a path with a letter beyond ASCII", ["show", "é"]),
    ("a path with a control character", ["show", "a\nb"]),
    ("a path with the last control character", ["show", "\x7f"]),
    ("an empty path", ["show", ""]),
    ("a command that isn't UTF-8", [b"sh\xffow", "i"]),
    ("a call that isn't UTF-8", ["load", "-o", "out", "m", b"open:\xff"]),
    ("a main object that isn't UTF-8", ["load", "-o", "out", b"\xc3"]),
    ("a folder that isn't UTF-8", ["load", "-o", "out", "-L", b"\xed\xa0\x80", "m"]),
    ("an image that isn't UTF-8", ["load", "-o", b"\x80", "m"]),
    ("a name that isn't UTF-8", ["link", "-o", "out", "--shared", b"\xff", "a.o"]),
    ("an input with a control character", ["link", "-o", "out", "a.o", "\t"]),
    ("no words but an empty one", [""]),
    ("a slot without a digit", ["reach", "i", ""]),
    ("a slot with a space behind it", ["reach", "i", "0x0 "]),
    ("a slot with a space before it", ["reach", "i", " 0x0"]),
    ("a slot with the end of a line", ["reach", "i", "0x0\n"]),
    ("a slot with a digit beyond ASCII", ["reach", "i", "0x\u0663"]),
    ("a slot that isn't UTF-8", ["reach", "i", b"0x\xff"]),
    ("a slot of 300 digits", ["reach", "i", "0x" + "0" * 300]),
    ("an image to reach in that isn't UTF-8", ["reach", b"\xff", "0x0"]),
    ("an empty image to reach in", ["reach", "", "0x0"]),
    ("an image to audit with a control character", ["audit", "a\nb", "m"]),
    ("an empty image to audit", ["audit", "", "m"]),
    ("an empty program to audit", ["audit", "whole", ""]),
    ("a program to audit that isn't UTF-8", ["audit", "whole", b"\xff"]),
    ("a call to audit that isn't UTF-8", ["audit", "whole", "m", b"try:\xff"]),
    ("a folder to audit with the last control character", ["audit", "-L", "\x7f", "whole", "m"]),
    ("an empty program to start", ["init", ""]),
    ("a program to start that isn't UTF-8", ["init", b"\xc3"]),
    ("a folder to start in that isn't UTF-8", ["init", "-L", b"\xed\xa0\x80", "m"]),
    ("a call to start with that isn't UTF-8", ["init", "m", b"open:\xff"]),
    ("a call to start with of a control character", ["init", "m", "try:\t"]),
]
LIMITS: list[tuple[str, list[str], int, str]] = [
    ("a path of 255 bytes", ["show", LONG[1:]], 3, LONG[1:] + ": no such file"),
    ("a path of 256 bytes", ["show", LONG], 9, "limit path or name"),
    ("a library's name of 256 bytes", ["load", "-o", "out", "m", "open:" + LONG], 9, "limit path or name"),
    ("an own name of 256 bytes", ["link", "-o", "out", "--shared", LONG, "a.o"], 9, "limit path or name"),
    ("65 calls", ["load", "-o", "out", "gone", *["open:x.so"] * 65], 9, "limit calls or inputs"),
    ("64 calls", ["load", "-o", "out", "gone", *["open:x.so"] * 64], 3, "gone: no such file"),
    ("257 inputs", ["link", "-o", "out", *["gone"] * 257], 9, "limit calls or inputs"),
    ("256 inputs", ["link", "-o", "out", *["gone"] * 256], 3, "gone: no such file"),
    ("a path of 256 bytes and 65 calls", ["load", "-o", "out", LONG, *["open:x.so"] * 65], 9, "limit path or name"),
    ("a false word, a path of 256 bytes and 65 calls",
     ["load", "-o", "out", LONG, *["open:x.so"] * 65, "shut:x.so"], 2, "usage"),

    ("a program to start of 255 bytes", ["init", LONG[1:]], 3, LONG[1:] + ": no such file"),
    ("a program to start of 256 bytes", ["init", LONG], 9, "limit path or name"),
    ("a folder to start in of 256 bytes", ["init", "-L", LONG, "gone"], 9, "limit path or name"),
    ("a library of 256 bytes to start", ["init", "gone", "try:" + LONG], 9, "limit path or name"),
    ("a folder and a library of 200 bytes each", ["init", "-L", "d" * 200, "m", "open:" + "x" * 200], 3,
     "d" * 200 + "/" + "x" * 200 + ": no such file"),
    ("65 calls to start with", ["init", "gone", *["try:x.so"] * 65], 9, "limit calls or inputs"),
    ("64 calls to start with", ["init", "gone", *["try:x.so"] * 64], 3, "gone: no such file"),
    ("a program of 256 bytes and 65 calls", ["init", LONG, *["open:x.so"] * 65], 9, "limit path or name"),
    ("a false call behind 65 others", ["init", "m", *["open:x.so"] * 65, "shut:x.so"], 2, "usage"),
    ("an image to reach in of 255 bytes", ["reach", LONG[1:], "0x0"], 3, LONG[1:] + ": no such file"),
    ("an image to reach in of 256 bytes", ["reach", LONG, "0x0"], 9, "limit path or name"),
    ("an image of 256 bytes and a false slot", ["reach", LONG, "0"], 2, "usage"),
    ("an image to audit of 255 bytes", ["audit", LONG[1:], "gone"], 3, LONG[1:] + ": no such file"),
    ("an image to audit of 256 bytes", ["audit", LONG, "gone"], 9, "limit path or name"),
    ("a program to audit of 256 bytes", ["audit", "gone", LONG], 9, "limit path or name"),
    ("a folder to audit of 256 bytes", ["audit", "-L", LONG, "gone", "m"], 9, "limit path or name"),
    ("a library of 256 bytes to audit", ["audit", "gone", "m", "global:" + LONG], 9, "limit path or name"),
    ("65 calls to audit", ["audit", "gone", "m", *["try:x.so"] * 65], 9, "limit calls or inputs"),
    ("64 calls to audit", ["audit", "gone", "m", *["try:x.so"] * 64], 3, "gone: no such file"),
    ("a program of 256 bytes and 65 calls to audit", ["audit", "gone", LONG, *["open:x.so"] * 65], 9,
     "limit path or name"),
    ("a false call behind 65 others to audit", ["audit", "gone", "m", *["open:x.so"] * 65, "open"], 2, "usage"),
]


ROWS = [
    *(Row("words: " + (words or "none"), FILES, [Run(words, 2, err="usage")]) for words in USAGE),
    *(Row("words: " + words, FILES, [Run(words, created={"out": Holds()})]) for words in LOADED + LINKED),
    *(Row("words: " + words, FILES, [Run(words, out=report)]) for words, report in SHOWN),
    *(Row("words: " + words, FILES, [Run(words, out="calls 0\n")]) for words in CALLED),
    *(Row("words: " + words, FILES, [Run(words, 14, err=told)]) for words, told in ASKED),
    *(Row("words: " + words, FILES, [Run(words, out="findings 0\n")]) for words in AUDITED),
    *(Row("words: " + shows, FILES, [Run(words, 2, err="usage")]) for shows, words in BAD_WORDS),
    *(Row("words: " + shows, FILES, [Run(words, status, err=line)]) for shows, words, status, line in LIMITS),
]
