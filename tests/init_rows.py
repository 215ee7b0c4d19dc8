"""Rows of `init`: the initial calls of a program and of what it opens, in their order, and each refusal."""
from objects import FUNCTION, INIT, INIT_SIZE, WEAK, WORD_64, Made, Relocation, Sparse, Symbol, shared, thing
from shared_object import FUNCTION_ENTRY, WRITABLE_ENTRY
from linking_rows import calls_first, calls_first_linked
from loading_rows import asking, large_symbol, many_libraries, of_span
from row import Row, Run
from users_case import FILES

FINI, FINI_SIZE = 26, 28
SPAN = 0x4000               # of an object of three segments
CODE, ARRAY = 0x1000, 0x2000


def starting(*needed: str, calls: int = 1) -> Made:
    """An object that needs these libraries, and has so many initial calls, each to another place of its code."""
    return shared(entries=[(ARRAY + 16 * i, CODE + 4 * i, 0, 0, FUNCTION_ENTRY) for i in range(calls)],
                  needed=list(needed), more_tags=[(INIT, ARRAY), (INIT_SIZE, 16 * calls)])


def line(slot: int, cursor: int, name: str) -> str:
    return f"call {slot:#018x} {cursor:#018x} {name}\n"


def called(*objects: tuple[int, str]) -> str:
    """The output where each of these objects, of a number in load order, has one initial call."""
    bases = [(0x40000000 + SPAN * number, name) for number, name in objects]
    return "".join(line(base + ARRAY, base + CODE, name) for base, name in bases) + f"calls {len(objects)}\n"


def printed(shows: str, files: dict[str, bytes], words: str, report: str, told: str = "") -> Row:
    return Row("init: " + shows, files, [Run("init " + words, out=report, err=told)])


def refused(shows: str, files: dict[str, bytes | Sparse], words: str, status: int, told: str) -> Row:
    return Row("init: " + shows, files, [Run("init " + words, status, err=told)])


two_need_one = {"p": starting("x.so", "y.so"), "x.so": starting("z.so"), "y.so": starting("z.so"), "z.so": starting()}
in_a_circle = {"p": starting("x.so"), "x.so": starting("y.so"), "y.so": starting("x.so")}
opened = {"p": starting(), "x.so": starting("z.so"), "y.so": starting("z.so", "w.so"), "z.so": starting(),
          "w.so": starting("y.so")}

# The array has a function, a word of data, a number, nothing, and a function; another function stands behind it.
mixed = shared([thing("d", 1, 0x3000, 16)], [Relocation(ARRAY + 32, "d", 0, WORD_64)],
               [(ARRAY + 80, CODE + 8, 0, 0, FUNCTION_ENTRY), (ARRAY + 64, CODE + 4, 0, 0, FUNCTION_ENTRY),
                (ARRAY + 16, 0x3000, 0, 16, WRITABLE_ENTRY), (ARRAY, CODE, 0, 0, FUNCTION_ENTRY)],
               more_tags=[(INIT, ARRAY), (INIT_SIZE, 80)])
last_calls = shared(entries=[(ARRAY, CODE, 0, 0, FUNCTION_ENTRY)], more_tags=[(FINI, ARRAY), (FINI_SIZE, 16)])
no_place = shared(entries=[(ARRAY, CODE, 0, 0, FUNCTION_ENTRY)], more_tags=[(INIT, ARRAY), (INIT_SIZE, 0)])
weak_call = shared([Symbol("gone", binding=WEAK)], [Relocation(ARRAY, "gone")],
                   more_tags=[(INIT, ARRAY), (INIT_SIZE, 16)])
library_call = shared([Symbol("f", kind=FUNCTION)], [Relocation(ARRAY, "f")], needed=["weak.so", "strong.so"],
                      more_tags=[(INIT, ARRAY), (INIT_SIZE, 16)])
two_definitions = {"m": library_call, "weak.so": shared([Symbol("f", 1, CODE, 4, FUNCTION, WEAK)]),
                   "strong.so": shared([Symbol("f", 1, CODE + 4, 4, FUNCTION)])}

good_and_bad = {"p": starting(), "lib/good.so": starting(), "lib/bad.so": asking}
HALF_CALL = shared(more_tags=[(INIT, ARRAY), (INIT_SIZE, 8)], at={"dynamic": 0x300})

ROWS = [
    Row("init: a linked library's initial call", {"i.o": calls_first}, [
        Run("link -o libi.so --shared libi.so i.o", created={"libi.so": calls_first_linked}),
        Run("init libi.so", out="call 0x00000000400020c0 0x0000000040001000 libi.so\ncalls 1\n")]),
    printed("an object starts behind all that it needs", two_need_one, "p",
            called((3, "z.so"), (1, "x.so"), (2, "y.so"), (0, "p"))),
    printed("of objects that need each other, what was found first starts last", in_a_circle, "p",
            called((2, "y.so"), (1, "x.so"), (0, "p"))),
    printed("what is opened starts behind the program, and what was started before isn't started again", opened,
            "p open:x.so open:y.so",
            called((0, "p"), (2, "z.so"), (1, "x.so"), (4, "w.so"), (3, "y.so"))),
    printed("a second open starts nothing", opened, "p open:x.so global:x.so try:z.so",
            called((0, "p"), (2, "z.so"), (1, "x.so"))),
    printed("a library that the program needs isn't started by its open", in_a_circle, "p global:y.so",
            called((2, "y.so"), (1, "x.so"), (0, "p"))),
    printed("an object that needs itself", {"p": starting("s.so"), "s.so": starting("s.so")}, "p",
            called((1, "s.so"), (0, "p"))),
    printed("calls of an object stand by their slots, and words that are no entries are passed over", {"m": mixed}, "m",
            line(0x40002000, 0x40001000, "m") + line(0x40002040, 0x40001004, "m") + "calls 2\n"),
    printed("three calls of one object", {"m": starting(calls=3)}, "m",
            line(0x40002000, 0x40001000, "m") + line(0x40002010, 0x40001004, "m")
            + line(0x40002020, 0x40001008, "m") + "calls 3\n"),
    printed("final calls aren't initial ones", {"m": last_calls}, "m", "calls 0\n"),
    printed("an array of no bytes", {"m": no_place}, "m", "calls 0\n"),
    printed("a program without initial calls", FILES, "-L lib app open:libp.so", "calls 0\n"),
    printed("a call that nothing defines, and that may be missing", {"m": weak_call}, "m", "calls 0\n"),
    printed("a call of another object's function is that of the object that asks for it", two_definitions, "m",
            line(0x40002000, 0x40009004, "m") + "calls 1\n"),
    printed("the same, where the first found is asked for", two_definitions, "--first-found m",
            line(0x40002000, 0x40005000, "m") + "calls 1\n"),
    printed("a program has the name by which it was asked for", {"lib/p": starting()}, "lib/p", called((0, "lib/p"))),
    printed("libraries of another folder", {"p": starting("x.so"), "lib/x.so": starting()}, "-L lib p",
            called((1, "x.so"), (0, "p"))),

    printed("a tried library that isn't there", good_and_bad, "-L lib p try:gone.so open:good.so",
            called((0, "p"), (1, "good.so")), "lib/gone.so: no such file"),
    printed("a tried library that is refused leaves no start", good_and_bad, "-L lib p try:bad.so open:good.so",
            called((0, "p"), (1, "good.so")), "lib/bad.so: unresolved g"),
    refused("a refusal behind a tried library", good_and_bad, "-L lib p try:gone.so open:bad.so try:gone.so", 6,
            "lib/gone.so: no such file\nlib/bad.so: unresolved g"),
    refused("an open that is refused", good_and_bad, "-L lib p open:good.so open:bad.so", 6,
            "lib/bad.so: unresolved g"),
    refused("no program", {}, "gone", 3, "gone: no such file"),
    refused("no needed library", {"p": starting("x.so")}, "-L lib p", 3, "lib/x.so: no such file"),
    refused("half an initial call", {"m": HALF_CALL}, "m", 4, "m: malformed array at 0x300"),
    refused("a program that is no shared object", {"m": calls_first}, "m", 5, "m: unsupported e_type at 0x10"),
    refused("a definition that isn't there", {"m": asking}, "m", 6, "m: unresolved g"),
    refused("bounds that can't be exact", {"m": large_symbol(0x3004)}, "m", 7, "m: inexact big 0x40003004 0x1000"),
    refused("a program that is too long", {"m": of_span(0x4001000)}, "m", 8, "m: full, asked 0x4001000"),
    refused("a file that is too long", {"m": Sparse(starting(), (1 << 26) + 1)}, "m", 9, "limit file size"),
    refused("257 objects", many_libraries(256), "m", 9, "limit objects"),
    refused("a 257th object that is tried", many_libraries(255) | {"x.so": starting()}, "m open:x.so", 9,
            "limit objects"),
    printed("the same is passed over where it is tried", many_libraries(255) | {"x.so": starting()}, "m try:x.so",
            "calls 0\n", "limit objects"),
]
