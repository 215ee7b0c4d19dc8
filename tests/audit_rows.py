"""Rows of `audit`: an image that is the program's own, each kind of finding and their order, and each refusal."""
from objects import Mapped, Sparse, Word, image, metadata, shared, u32
from shared_object import WRITABLE_ENTRY
from loading_rows import (app_and_good, asking, good_and_bad, large_symbol, many_libraries, of_span, opened, p_and_a,
                          weak_and_strong)
from row import Holds, Row, Run
from showing_rows import CUTS, HEAD_CASES, WORD_CASES, two
from users_case import FILES, LOADING, MAPPED, a_o, img

MAIN, LIBRARY = 0x40000000, 0x40004000
USERS = "audit img -L lib app open:libp.so"
DIFFERS = "img: differs"


def found(*findings: tuple[str, int, int]) -> str:
    return ("".join(f"finding {what} object {number} at {at:#018x}\n" for what, number, at in findings)
            + f"findings {len(findings)}\n")


def of_user(shows: str, made: bytes, *findings: tuple[str, int, int], words: str = USERS) -> Row:
    """The user's program beside another image than its own."""
    return Row("audit: " + shows, FILES | {"img": made}, [Run(words, 15, out=found(*findings), err=DIFFERS)])


# Four words of an object to the four granules of its data, as a program and as a library that it opens.
four = shared(entries=[(0x2000 + 16 * i, 0x3000 + 16 * i, 0, 16, WRITABLE_ENTRY) for i in range(4)])
FOUR = {"m": four, "x.so": four}


def words_of(base: int, owner: int) -> list[Word]:
    return [Word(base + 0x2000 + 16 * i, base + 0x3000 + 16 * i, metadata(base + 0x3000 + 16 * i, 16, 0x7D), owner)
            for i in range(4)]


M, X = words_of(MAIN, 0), words_of(LIBRARY, 1)
SLOT = [word.granule for word in M]
SLOT_X = [word.granule for word in X]


def both(m: list[Word] = M, x: list[Word] = X, m_memory: bytes = four, x_memory: bytes = four,
         version: int = 2) -> bytes:
    return image([Mapped(MAIN, "m", m_memory, m), Mapped(LIBRARY, "x.so", x_memory, x)], version)


def changed(words: list[Word], number: int, **new: int | str) -> list[Word]:
    return [Word(**vars(word) | new) if i == number else word for i, word in enumerate(words)]


def of_both(shows: str, made: bytes, *findings: tuple[str, int, int]) -> Row:
    return Row("audit: " + shows, FOUR | {"img": made}, [
        Run("audit img m open:x.so", 15, out=found(*findings), err=DIFFERS)])


def other_bytes(*places: int) -> bytes:
    return four.but({at: bytes([four[at] ^ 0x80]) for at in places})


def extra(base: int, at: int) -> Word:
    return Word(base + at, base, metadata(base, 16, 0x7D))


every_kind = both(
    m=changed(changed(M, 1, address=M[1].address + 1), 2, name="d")[1:],
    x=[X[0], X[2], X[1], X[3]], m_memory=other_bytes(8, 15), x_memory=other_bytes(0x3FFF))
EVERY_KIND = [("bytes", 0, MAIN), ("tag", 0, SLOT[0]), ("word", 0, SLOT[1]), ("owner", 0, SLOT[2]),
              ("bytes", 1, LIBRARY + 0x3FF0), ("order", 1, LIBRARY)]
all_objects = image([Mapped(MAIN, "x.so", four, []), Mapped(LIBRARY, "m", four, [])], 1)

permissions_at = img.at["memory app"] + 0x3000 + 14
assert img[permissions_at] == 0x15


def moved(base: int) -> list[Mapped]:
    return [*MAPPED[:2], Mapped(base, "libp.so", MAPPED[2].memory,
                                [Word(base + 0x2000, w.address, w.metadata, w.owner, w.name) for w in MAPPED[2].words])]


longer = [*MAPPED[:2], Mapped(MAPPED[2].base, "libp.so", MAPPED[2].memory + bytes(4096), MAPPED[2].words)]

OTHER_OBJECTS = [
    ("an image without the last object", image(MAPPED[:2]), [("object", 2, 0)]),
    ("an image without objects", image([]), [("object", 0, 0), ("object", 1, 0), ("object", 2, 0)]),
    ("an image with an object more", image([*MAPPED, Mapped(0x4000B000, "more", bytes(4096), [])]), [("object", 3, 0)]),
    ("an object with another base", image(moved(0x40009000)), [("object", 2, 0)]),
    ("an object with another size", image(longer), [("object", 2, 0)]),
    ("an object with another name", img.but({img.at["record libh.so"] + 18: b"L"}), [("object", 1, 0)]),
    ("an object with another name and other bytes",
     img.but({img.at["record libh.so"] + 18: b"L", img.at["memory libp.so"]: b"L"}), [("object", 1, 0)])]

REFUSED: list[tuple[str, dict[str, bytes | Sparse], str, int, str]] = [
    ("no program", {}, "m", 3, "m: no such file"),
    ("a program that is malformed", {"m": four[:63]}, "m", 4, "m: malformed file header at 0x3f"),
    ("a program that is no shared object", {"m": a_o}, "m", 5, "m: unsupported e_type at 0x10"),
    ("a definition that isn't there", {"m": asking}, "m", 6, "m: unresolved g"),
    ("bounds that can't be exact", {"m": large_symbol(0x3004)}, "m", 7, "m: inexact big 0x40003004 0x1000"),
    ("a program that is too long", {"m": of_span(0x4001000)}, "m", 8, "m: full, asked 0x4001000"),
    ("a file that is too long", {"m": Sparse(four, (1 << 26) + 1)}, "m", 9, "limit file size"),
    ("257 objects", many_libraries(256), "m", 9, "limit objects"),
    ("an open that is refused", good_and_bad, "-L lib app open:good.so open:bad.so", 6,
     "lib/bad.so: unresolved gone"),
    ("an open that is refused behind a tried one", good_and_bad, "-L lib app try:gone.so open:bad.so try:gone.so", 6,
     "lib/gone.so: no such file\nlib/bad.so: unresolved gone")]


def refused(shows: str, files: dict[str, bytes | Sparse], words: str, status: int, told: str) -> Row:
    """The image is one of no object, so that it differs too."""
    return Row("audit: " + shows, files | {"i": image([])}, [Run("audit i " + words, status, err=told)])


def refused_image(shows: str, contents: bytes, told: str) -> Row:
    """There is no program either: the image is read first."""
    status = 5 if told.startswith("unsupported") else 4
    return Row("audit: " + shows, {"i": contents}, [Run("audit i gone try:gone", status, err="i: " + told)])


ROWS = [
    Row("audit: the image of the user's program", FILES, [
        Run(LOADING, created={"img": img}),
        Run(USERS, out="findings 0\n")]),
    of_user("a word that may write", img.but({permissions_at: b"\x7d"}), ("word", 0, 0x40003000)),
    of_user("the image of other calls", img, ("object", 2, 0), words="audit img -L lib app"),
    of_user("a library twice", img, ("object", 2, 0), words="audit img -L lib app open:libh.so"),
    of_user("a program by another path", img, ("object", 0, 0), words="audit img -L lib ./app open:libp.so"),
    of_user("an image of version 1", image(MAPPED, version=1), ("version", 0, 8)),
    *(of_user(shows, made, *findings) for shows, made, findings in OTHER_OBJECTS),
    of_user("an image of version 1 without an object", image(MAPPED[:2], version=1), ("version", 0, 8),
            ("object", 2, 0)),
    of_user("an image of version 1 with other bytes",
            image([*MAPPED[:2], Mapped(MAPPED[2].base, "libp.so", bytes(0x3000), [])], 1), ("version", 0, 8)),

    Row("audit: a program and what it opens", FOUR, [
        Run("load -o img m open:x.so", created={"img": both()}),
        *(Run("audit img " + words, out="findings 0\n") for words in (
            "m open:x.so", "m global:x.so", "m try:x.so", "m open:x.so open:x.so try:x.so"))]),
    of_both("each kind of finding in one image", every_kind, *EVERY_KIND),
    of_both("each object is another, and the version", all_objects, ("version", 0, 8), ("object", 0, 0),
            ("object", 1, 0)),
    of_both("a word that is missing", both(m=M[:3]), ("tag", 0, SLOT[3])),
    of_both("a word more, whose bytes differ too", both(m=[*M, extra(MAIN, 0x3000)]), ("tag", 0, MAIN + 0x3000)),
    of_both("a word more among the library's bytes",
            both(x=[*X, Word(LIBRARY, *(int.from_bytes(four[at:at + 8], "little") for at in (0, 8)), 1)]),
            ("tag", 1, LIBRARY)),
    of_both("another address", both(m=changed(M, 3, address=M[3].address + 16)), ("word", 0, SLOT[3])),
    of_both("other bounds", both(x=changed(X, 0, metadata=metadata(X[0].address, 17, 0x7D))),
            ("word", 1, SLOT_X[0])),
    of_both("another seal", both(x=changed(X, 0, metadata=metadata(X[0].address, 16, 0x7D, 5))),
            ("word", 1, SLOT_X[0])),
    of_both("a reserved bit of a word", both(m=changed(M, 0, metadata=M[0].metadata ^ 1 << 46)), ("word", 0, SLOT[0])),
    of_both("another owner", both(m=changed(M, 3, owner=1)), ("owner", 0, SLOT[3])),
    of_both("another owner, before its other words", both(x=changed(X, 3, owner=0)), ("owner", 1, SLOT_X[3])),
    of_both("another name", both(m=changed(M, 0, name="d")), ("owner", 0, SLOT[0])),
    of_both("another word with another name", both(m=changed(M, 0, name="d", address=M[0].address + 1)),
            ("word", 0, SLOT[0]), ("order", 0, MAIN)),
    of_both("the first byte", both(m_memory=other_bytes(0)), ("bytes", 0, MAIN)),
    of_both("the last byte", both(x_memory=other_bytes(0x3FFF)), ("bytes", 1, LIBRARY + 0x3FF0)),
    of_both("two bytes of a granule, and one of the next", both(m_memory=other_bytes(0x20, 0x2F, 0x30)),
            ("bytes", 0, MAIN + 0x20), ("bytes", 0, MAIN + 0x30)),
    of_both("another order of records", both(m=[M[1], M[0], M[2], M[3]]), ("order", 0, MAIN)),
    of_both("another order in both objects, and a word",
            both(m=M[::-1], x=changed(X, 0, address=LIBRARY + 0x3001)[::-1]),
            ("word", 1, SLOT_X[0]), ("order", 0, MAIN), ("order", 1, LIBRARY)),
    of_both("another order and other bytes", both(m=M[::-1], m_memory=other_bytes(0x3FFF)),
            ("bytes", 0, MAIN + 0x3FF0), ("order", 0, MAIN)),
    of_both("another order beside a name", both(m=changed(M, 0, name="d")[::-1]), ("owner", 0, SLOT[0])),

    Row("audit: the first found definition and the other", weak_and_strong, [
        Run("link -o weak.so --shared weak.so weak.o", created={"weak.so": Holds()}),
        Run("link -o strong.so --shared strong.so strong.o", created={"strong.so": Holds()}),
        Run("link -o app m.o weak.so strong.so", created={"app": Holds()}),
        Run("load -o i --first-found app", created={"i": Holds()}),
        Run("audit i --first-found app", out="findings 0\n"),
        Run("audit i app", 15, out=found(("word", 0, 0x40002000), ("order", 0, MAIN)), err="i: differs")]),
    Row("audit: a call that changes no word, and one that adds an object", opened, [
        Run("load -o i p open:a.so", created={"i": p_and_a}),
        Run("audit i p open:a.so global:a.so", out="findings 0\n"),
        Run("audit i p open:a.so global:a.so open:c.so", 15, out=found(("object", 2, 0)), err="i: differs")]),
    Row("audit: tried libraries that are refused", good_and_bad | {"i": app_and_good}, [
        Run("audit i -L lib app try:bad.so open:good.so", out="findings 0\n", err="lib/bad.so: unresolved gone"),
        Run("audit i -L lib app try:bad.so try:gone.so", 15, out=found(("object", 1, 0)),
            err="lib/bad.so: unresolved gone\nlib/gone.so: no such file\ni: differs")]),

    *(refused(*case) for case in REFUSED),
    *(refused_image(f"an image that is cut to {length} bytes", two[:length], f"malformed image end at {length:#x}")
      for length in CUTS),
    *(refused_image("an image with " + name, two.but(changes), told)
      for name, changes, told in HEAD_CASES + WORD_CASES),
    refused_image("an image with a byte more", two + b"\0", f"malformed image tail at {len(two):#x}"),
    Row("audit: an image of more than 256 objects", {"i": two.but({12: u32(257)})}, [
        Run("audit i gone", 9, err="limit image objects")]),
    Row("audit: neither an image nor a program", {}, [Run("audit i gone", 3, err="i: no such file")]),
]
