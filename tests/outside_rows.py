"""Rows in which the system fails: files that can't be read or written, and calls that fail one at a time."""
from objects import READ, READ_WRITE, Mapped, Segment, image, shared
from init_rows import called, starting
from reach_rows import lines
from row import Row, Run
from users_case import FILES, LOADING, REPORT, h_o, img

app, folder = shared(), b""
wide = shared(segments=(Segment(0, 0x1000, READ), Segment(0x2000, 0x20000, READ_WRITE, 0)))
wide_image = image([Mapped(0x40000000, "m", wide.ljust(0x22000, b"\0"), [])])


def failing(call: int, status: int, line: str, created: dict[str, bytes]) -> Run:
    return Run(LOADING, status, err=line, created=created, failing_call=call)


# Each file is opened, read, and read once more to its end. The image is created beside its name, written, brought to
# the disk and renamed; where there is an older one, that is opened first.
FAILING = [
    *(failing(call, 10, "app: read fault", {}) for call in (1, 2, 3)),
    *(failing(call, 10, "lib/libh.so: read fault", {}) for call in (4, 5, 6)),
    *(failing(call, 10, "lib/libp.so: read fault", {}) for call in (7, 8, 9)),
    *(failing(call, 11, "img: write fault", {}) for call in (10, 11, 12, 13)),
    failing(14, 0, "", {"img": img}),
    *(failing(call, 11, "img: write fault", {}) for call in (10, 11, 12, 13, 14)),
    failing(15, 0, "", {"img": img})]

# A program, a library that it needs and one that it opens.
STARTING = {"p": starting("x.so"), "lib/x.so": starting(), "lib/y.so": starting()}
STARTED = called((1, "x.so"), (0, "p"), (2, "y.so"))
STARTS = "init -L lib p open:y.so"
REACHES = "reach img 0x400020c0"
REACHED = lines(REPORT, 0x400020C0, 0x40003000, 0x40003010)
AUDITS = "audit img -L lib app try:gone.so open:libp.so"
NOT_THERE = "lib/gone.so: no such file"
OTHER = image([])


def failing_reads(words: str, paths: list[str], told: dict[int, str]) -> list[Run]:
    """Each call of the system fails in turn: a file is opened, read, and read once more to its end, or it isn't there.
    What was told before the call of this number stands before its line."""
    calls = [path for path in paths for _ in range(1 if path == "lib/gone.so" else 3)]
    return [Run(words, 10, err="".join(line + "\n" for at, line in told.items() if at < call) + f"{path}: read fault",
                failing_call=call) for call, path in enumerate(calls, 1)]


ROWS = [
    Row("an image that can't be read", {"i/": folder}, [Run("show i", 10, err="i: read fault")]),
    Row("a program that can't be read", {"m/": folder}, [Run("load -o i m", 10, err="m: read fault")]),
    Row("a library that can't be read ends the load, also where it is only tried", {"m": app, "lib/x.so/": folder}, [
        Run("load -o i -L lib m open:x.so", 10, err="lib/x.so: read fault"),
        Run("load -o i -L lib m try:gone.so try:x.so", 10, err="lib/gone.so: no such file\nlib/x.so: read fault")]),
    Row("an input that can't be read", {"h.o": h_o, "p.o/": folder}, [
        Run("link -o out h.o p.o", 10, err="p.o: read fault")]),
    Row("an image that can't be created", {"m": app, "there/": folder}, [
        Run("load -o gone/i m", 11, err="gone/i: write fault"), Run("load -o there m", 11, err="there: write fault")]),
    Row("a linked file that can't be created", {"h.o": h_o}, [
        Run("link -o gone/out h.o", 11, err="gone/out: write fault")]),
    Row("an image whose second part can't be written", {"m": wide}, [
        Run("load -o i m", created={"i": wide_image}),
        Run("load -o j m", 11, err="j: write fault", longest_file=65536),
        Run("load -o i m", 11, err="i: write fault", longest_file=65536)]),
    Row("a linked file that can't be written", {"h.o": h_o}, [
        Run("link -o /dev/full h.o", 11, err="/dev/full: write fault")]),
    Row("a report that can't be written", {"i": img}, [Run("show i", 11, err="-: write fault", stdout="/dev/full")]),
    Row("initial calls that can't be written", STARTING, [
        Run(STARTS, 11, err="-: write fault", stdout="/dev/full"),
        Run(STARTS + " try:gone.so", 11, err=NOT_THERE + "\n-: write fault", stdout="/dev/full"),
        Run(STARTS + " open:gone.so", 3, err=NOT_THERE, stdout="/dev/full")]),
    Row("reached words that can't be written", {"img": img}, [
        Run(REACHES, 11, err="-: write fault", stdout="/dev/full"),
        Run("reach img 0x400020e0", 14, err="img: no tagged word at 0x400020e0", stdout="/dev/full")]),
    Row("findings that can't be written", FILES | {"img": img, "other": OTHER}, [
        Run("audit img -L lib app open:libp.so", 11, err="-: write fault", stdout="/dev/full"),
        Run(AUDITS, 11, err=NOT_THERE + "\n-: write fault", stdout="/dev/full"),
        Run("audit other -L lib app", 11, err="-: write fault", stdout="/dev/full"),
        Run("audit other -L lib app open:gone.so", 3, err=NOT_THERE, stdout="/dev/full")]),
    Row("a program to start that can't be read", {"m/": folder}, [Run("init m", 10, err="m: read fault")]),
    Row("a library to start that can't be read, also where it is only tried", {"m": app, "lib/x.so/": folder}, [
        Run("init -L lib m try:gone.so try:x.so", 10, err=NOT_THERE + "\nlib/x.so: read fault")]),
    Row("an image to reach in that can't be read", {"i/": folder}, [Run("reach i 0x1", 10, err="i: read fault")]),
    Row("an image to audit that can't be read, and a program that isn't there", {"i/": folder}, [
        Run("audit i gone", 10, err="i: read fault")]),
    Row("a program to audit that can't be read", {"i": img, "m/": folder}, [Run("audit i m", 10, err="m: read fault")]),
    Row("a library to audit that can't be read, also where it is only tried",
        {"i": img, "m": app, "lib/x.so/": folder}, [
            Run("audit i -L lib m try:gone.so try:x.so", 10, err=NOT_THERE + "\nlib/x.so: read fault")]),

    Row("each call of the system fails in turn", FILES, FAILING),
    Row("each call of the system fails in turn, of initial calls", STARTING, [
        *failing_reads(STARTS, ["p", "lib/x.so", "lib/y.so"], {}), Run(STARTS, out=STARTED, failing_call=10)]),
    Row("each call of the system fails in turn, of reached words", {"img": img}, [
        *failing_reads(REACHES, ["img"], {}), Run(REACHES, out=REACHED, failing_call=4)]),
    Row("each call of the system fails in turn, of an audit", FILES | {"img": img}, [
        *failing_reads(AUDITS, ["img", "app", "lib/libh.so", "lib/gone.so", "lib/libp.so"], {10: NOT_THERE}),
        Run(AUDITS, out="findings 0\n", err=NOT_THERE, failing_call=14)]),
    Row("the end of an image can't be read", {"i": image([])}, [
        Run("show i", 10, err="i: read fault", failing_call=call) for call in (1, 2, 3)]),
    Row("reads and writes of a byte each, and of seven", FILES, [
        run for most in (1, 7) for run in (Run(LOADING, created={"img": img}, shortest_calls=most),
                                           Run("show img", out=REPORT, shortest_calls=most))]),
    Row("calls that are interrupted", FILES | STARTING, [
        Run(LOADING, created={"img": img}, interrupted_calls=True),
        Run(LOADING, created={"img": img}, interrupted_calls=True, shortest_calls=7),
        Run("show img", out=REPORT, interrupted_calls=True), Run(STARTS, out=STARTED, interrupted_calls=True)]),
    *(Row(f"reads and writes of {most} bytes at the most, where no file is written",
          FILES | STARTING | {"img": img, "other": OTHER}, [
        Run(STARTS, out=STARTED, shortest_calls=most), Run(REACHES, out=REACHED, shortest_calls=most),
        Run(AUDITS, out="findings 0\n", err=NOT_THERE, shortest_calls=most),
        Run("audit other p -L lib", 15, out="finding object object 0 at 0x0000000000000000\n"
            "finding object object 1 at 0x0000000000000000\nfindings 2\n", err="other: differs", shortest_calls=most)])
      for most in (1, 7)),
]
