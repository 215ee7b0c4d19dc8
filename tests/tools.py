#!/usr/bin/env python3
"""Tests of the tools: tests/tools.py [PROGRAM]

Expected values are worked out by hand from docs/FORMATS.md. What needs a compiler, a reader of ELF files, a browser or
the program is skipped with a word where that isn't there."""
import io
import os
import re
import shutil
import struct
import subprocess
import sys
import tempfile
import unittest
import zlib
from pathlib import Path

TESTS = Path(__file__).resolve().parent
ROOT = TESTS.parent
TOOLS = ROOT / "tools"
sys.path[:0] = [str(TESTS), str(TOOLS), str(ROOT / "examples")]
import compare  # noqa: E402
import image  # noqa: E402
import objects  # noqa: E402
import unproved  # noqa: E402
import where  # noqa: E402
from convert import Refused, convert  # noqa: E402
from elf import (ALLOCATED, CALL, CALL_PLT, CAPABILITY, FLAGS_AT, GOT_HIGH, GROUP, INIT_ARRAY, LOCAL, OBJECT,
                 PCREL_HIGH, PCREL_LOW, SECTION, TABLE_HIGH, TLS, WORD_64, WRITABLE, Broken, Relocation, Section,
                 Symbol, data, function, label, read_relocatable, relocatable, text, thing, u16, u32)  # noqa: E402
from make_objects import OBJECTS  # noqa: E402
from picture import page, reached_from  # noqa: E402

PROGRAM = Path(sys.argv[1]).resolve() if len(sys.argv) > 1 else None
PLAIN = 0x5  # the flags of an ordinary object: compressed instructions, floats of two words
NOP = u32(0x13)


def ordinary(sections: list[Section], symbols: list[Symbol], relocations: dict) -> bytes:
    return bytes(relocatable(sections, symbols, relocations, flags=PLAIN))


def section_symbol(name: str) -> Symbol:
    return Symbol("", name, 0, 0, SECTION, LOCAL)


def tool(name: str, *words: str | Path) -> subprocess.CompletedProcess:
    return subprocess.run([sys.executable, TOOLS / name, *words], capture_output=True, text=True, timeout=120)


def needs(name: str):
    return unittest.skipUnless(shutil.which(name), f"no {name}")


# A part of three pointers and numbers, a number, and a pointer that no symbol covers.
MIXED = ordinary(
    [text(NOP * 8), data(bytes(8) + b"int!" + bytes(12) + b"a number" + bytes(8), alignment=8),
     Section(".rodata", b"hello\0\0\0" + bytes(8), ALLOCATED, 8),
     Section(".init_array", bytes(8), ALLOCATED | WRITABLE, 8, INIT_ARRAY)],
    [section_symbol(".text"), section_symbol(".data"), label("low", 4), Symbol("bad\x02name", ".text", 8, 0, 0, LOCAL),
     function("_start", ".text", 0, 32), thing("record", ".data", 0, 24), thing("single", ".data", 24, 8),
     thing("hello", ".rodata", 0, 6), thing("link", ".rodata", 8, 8), Symbol("counter"), Symbol("far")],
    {".text": [Relocation(4, "counter", kind=GOT_HIGH), Relocation(8, "low", kind=PCREL_LOW),
               Relocation(12, "record", 16, kind=PCREL_HIGH), Relocation(20, "far", kind=CALL_PLT)],
     ".data": [Relocation(0, "hello", kind=WORD_64), Relocation(16, 2, 24, kind=WORD_64),
               Relocation(32, 1, 8, kind=WORD_64)],
     ".rodata": [Relocation(8, "record", 24, kind=WORD_64)], ".init_array": [Relocation(0, "_start", kind=WORD_64)]})


class Converter(unittest.TestCase):
    def setUp(self) -> None:
        self.new = read_relocatable(convert(MIXED).contents)
        self.named = {s.name: s for s in self.new.symbols}

    def section(self, name: str) -> tuple[int, Section]:
        return next((n, s) for n, s in enumerate(self.new.sections) if s.name == name)

    def records(self, name: str) -> list[tuple[int, int, str, int]]:
        return [(r.offset, r.kind, self.new.symbols[r.symbol].name, r.addend)
                for r in self.new.relocations[self.section(name)[0]]]

    def test_pointers_become_slots_and_the_rest_follows(self) -> None:
        section = self.section(".data")[1]
        self.assertEqual(section.contents, bytes(16) + b"int!" + bytes(28) + b"a number" + bytes(24))
        self.assertEqual(section.alignment, 16)
        places = {name: (s.value, s.size) for name, s in self.named.items()}
        self.assertEqual(places["record"], (0, 48))
        self.assertEqual(places["single"], (48, 8))
        self.assertEqual([(s.value, s.size, s.kind) for s in self.new.symbols if s.name.startswith(".Ldata")],
                         [(64, 16, OBJECT)])
        self.assertEqual(self.records(".data"), [(0, CAPABILITY, "hello", 0), (32, CAPABILITY, "", 48),
                                                 (64, CAPABILITY, ".Lcode.0", 0)])
        self.assertEqual((self.named[".Lcode.0"].value, self.named[".Lcode.0"].binding), (8, LOCAL))

    def test_code_and_arrays_and_read_only_data(self) -> None:
        self.assertEqual(self.records(".text"), [(4, TABLE_HIGH, "counter", 0), (8, PCREL_LOW, "low", 0),
                                                 (12, PCREL_HIGH, "record", 32), (20, CALL, "far", 0)])
        moved = self.section(".data.rel.ro.rodata")[1]
        self.assertEqual((moved.flags, moved.contents), (ALLOCATED | WRITABLE, b"hello\0\0\0" + bytes(24)))
        self.assertEqual((self.named["link"].value, self.named["link"].size), (16, 16))
        self.assertEqual(self.records(".data.rel.ro.rodata"), [(16, CAPABILITY, "record", 48)])
        calls = self.section(".init_array")[1]
        self.assertEqual((calls.size, calls.alignment), (16, 16))
        self.assertEqual(self.records(".init_array"), [(0, CAPABILITY, "_start", 0)])
        self.assertEqual(self.new.flags, PLAIN | 0x30000)
        self.assertIn("bad_name", self.named)
        bindings = [s.binding for s in self.new.symbols]
        self.assertEqual(bindings, sorted(bindings))

    def test_plain_addresses_are_warned_of(self) -> None:
        packed = ordinary([data(bytes(16), alignment=1)], [thing("x", ".data", 0, 16), Symbol("y")],
                          {".data": [Relocation(1, "y", kind=WORD_64)]})
        self.assertEqual([str(w) for w in convert(packed).warnings], [".data+0x1: a plain 64-bit address of y"])
        kept = convert(MIXED, {".data"}).warnings
        self.assertEqual([w.where for w in kept], [".data+0x0", ".data+0x10", ".data+0x20"])
        with tempfile.TemporaryDirectory() as folder:
            Path(folder, "p.o").write_bytes(convert(packed).contents)
            ended = tool("convert.py", "--check", Path(folder, "p.o"))
            self.assertEqual(ended.returncode, 1)
            self.assertIn("p.o: warning: .data+0x1: a plain 64-bit address of y", ended.stderr)

    def test_refusals_name_section_and_symbol(self) -> None:
        x = thing("x", ".data", 0, 8)
        tls = Section(".tdata", bytes(8), ALLOCATED | WRITABLE | 0x400)
        late = Section(".init_array.101", bytes(8), ALLOCATED | WRITABLE, 8, INIT_ARRAY)
        for why, made in {
            ".text+0x0: HI20 of x: an absolute address: compile with -fPIC":
                ordinary([text(NOP * 2), data(bytes(8))], [x], {".text": [Relocation(0, "x", kind=26)]}),
            ".text+0x4: ALIGN of no symbol: code that a linker is to shorten: compile with -mno-relax":
                ordinary([text(NOP * 2)], [], {".text": [Relocation(4, 0, 6, kind=43)]}),
            ".text+0x0: TLS_GOT_HI20 of x: thread-local data":
                ordinary([text(NOP * 2), data(bytes(8))], [x], {".text": [Relocation(0, "x", kind=21)]}),
            ".text+0x0: 64 of x: a plain 64-bit address in code":
                ordinary([text(NOP * 2), data(bytes(8))], [x], {".text": [Relocation(0, "x", kind=WORD_64)]}),
            ".tdata: thread-local data": ordinary([tls], [], {}),
            "x: thread-local data": ordinary([data(bytes(8))], [Symbol("x", ".data", 0, 8, TLS)], {}),
            ".init_array.101: calls with a priority: use constructors without one": ordinary([late], [], {}),
            ".data+0x4: y shares bytes with x, and is not the same part of it":
                ordinary([data(bytes(16))], [x, thing("y", ".data", 4, 8)], {}),
            ".data+0x8: CAPABILITY of x: -1 bytes from it, and outside of it":
                ordinary([data(bytes(16))], [x], {".data": [Relocation(8, "x", -1, kind=WORD_64)]}),
            ".data+0x0: a pointer in part inside y":
                ordinary([data(bytes(16))], [thing("y", ".data", 4, 8)], {".data": [Relocation(0, "y", kind=WORD_64)]}),
            ".eh_frame: plain addresses in what unwinds the stack: compile with -fPIC":
                ordinary([Section(".eh_frame", bytes(16), ALLOCATED, 8), data(bytes(8))], [x],
                         {".eh_frame": [Relocation(8, "x", kind=WORD_64)]}),
            "f: a function in .data, which is no code": ordinary([data(bytes(8))], [function("f", ".data", 0, 8)], {}),
        }.items():
            with self.subTest(why):
                with self.assertRaises(Refused) as refused:
                    convert(made)
                self.assertIn(why, [str(finding) for finding in refused.exception.findings])

    def test_what_is_no_such_object(self) -> None:
        for why, contents in {
            "an empty file": b"", "an image": image.MAGIC,
            "text (a linker script?) and no ELF file": b"GROUP ( libc.so.6 )\n",
            "LLVM bitcode: compile without -flto": b"BC\xc0\xde" + bytes(60), "no ELF file": bytes(range(100)),
            "a 64-bit ELF file for x86-64, and not for 64-bit RISC-V": OBJECTS["main.o"].but({18: u16(62)}),
            "a shared object, and not a relocatable object": OBJECTS["main.o"].but({16: u16(3)}),
            "of the profile already": OBJECTS["main.o"],
        }.items():
            with self.subTest(why), self.assertRaisesRegex(Broken, re.escape(why)):
                convert(bytes(contents))

    def test_section_anchors_are_warned_of(self) -> None:
        made = ordinary([data(bytes(8))], [Symbol(".LANCHOR0", ".data", 0, 0, 0, LOCAL)], {})
        self.assertIn("section anchors", str(convert(made).warnings[0]))

    def test_groups_are_dissolved(self) -> None:
        made = ordinary([Section(".group", u32(1, 2), 0, 4, GROUP, 4, 1, 4), data(bytes(8))],
                        [Symbol("x", ".data", 0, 8, OBJECT, 2)], {})
        self.assertIn("groups of sections", str(convert(made).warnings[0]))

    def test_archives_member_by_member(self) -> None:
        def member(name: str, body: bytes) -> bytes:
            head = f"{name:16}{0:<12}{0:<6}{0:<6}{644:<8}{len(body):<10}`\n"
            return head.encode() + body + b"\n" * (len(body) % 2)

        long_names = b"a_member_with_a_long_name.o/\nanother_with_a_long_name.o/\n"
        archive = (b"!<arch>\n" + member("/", bytes(4)) + member("//", long_names) + member("m.o/", MIXED)
                   + member("/0", MIXED) + member("/29", MIXED) + member("m.o/", MIXED) + member("notes/", b"text"))
        with tempfile.TemporaryDirectory() as folder:
            Path(folder, "l.a").write_bytes(archive)
            Path(folder, "out").mkdir()
            ended = tool("convert.py", "-d", Path(folder, "out"), Path(folder, "l.a"))
            self.assertEqual(ended.stdout, "4 converted, 1 refused, 0 warnings\n")
            self.assertIn("l.a(notes): refused: text (a linker script?) and no ELF file", ended.stderr)
            self.assertEqual(sorted(p.name for p in Path(folder, "out").iterdir()),
                             ["a_member_with_a_long_name.o", "another_with_a_long_name.o", "m.1.o", "m.o"])
            self.assertIn("use -d FOLDER", tool("convert.py", "-o", Path(folder, "x"), Path(folder, "l.a")).stderr)


SOURCE = """
struct rec { const char *name; int n; int (*f)(int); };
extern int far; extern int *fars[]; int puts(const char *);
static int own = 3; int tentative;
static int twice(int x) { return 2 * x; }
__attribute__((weak)) int thrice(int x) { return 3 * x; }
const struct rec recs[] = {{"one", 1, twice}, {"two", 2, thrice}, {0, 3, 0}};
int *to_far = &far, *to_own = &own;
const char *const words[] = {"a", "b", "c"};
__attribute__((constructor)) static void begin(void) { own += far; }
int choose(int x) {
    static void *places[] = {&&first, &&second};
    switch (x) { case 0: return puts("a"); case 1: return 5; case 2: return 77; case 3: return thrice(x);
                 case 4: return 9; }
    goto *places[x & 1];
first: return recs[x & 1].n + own;
second: return tentative + *to_far;
}
"""
COMPILERS = {"clang": ["clang", "--target=riscv64-linux-gnu", "-march=rv64gc"],
             "gcc": ["riscv64-linux-gnu-gcc", "-fno-section-anchors"]}


def can_compile(compiler: list[str]) -> bool:
    if not shutil.which(compiler[0]):
        return False
    ended = subprocess.run([*compiler, "-x", "c", "-c", "-o", "/dev/null", "-"], input=b"int x;", capture_output=True)
    return ended.returncode == 0


class Compiled(unittest.TestCase):
    def made_by(self, compiler: list[str], folder: Path) -> list[Path]:
        folder.joinpath("a.c").write_text(SOURCE)
        made = []
        for level in ("-O0", "-O2"):
            plain, new = folder / f"plain{level}.o", folder / f"new{level}.o"
            subprocess.run([*compiler, "-fPIC", "-mno-relax", "-fcommon", "-g", level, "-c", "-o", plain,
                            folder / "a.c"], check=True, capture_output=True)
            ended = tool("convert.py", "-o", new, plain)
            self.assertEqual((ended.returncode, ended.stderr), (0, ""))
            self.assertEqual(tool("convert.py", "--check", plain).returncode, 1)
            self.assertEqual(tool("convert.py", "--check", new).stdout, "1 in order, 0 refused, 0 warnings\n")
            made.append(new)
        return made

    def read_by_all(self, path: Path) -> None:
        for reader in ("readelf", "riscv64-linux-gnu-readelf", "llvm-readelf"):
            if shutil.which(reader):
                ended = subprocess.run([reader, "-a", path], capture_output=True, text=True)
                self.assertEqual(ended.stderr, "", reader)
                self.assertNotRegex(ended.stdout.lower(), "warning|corrupt|invalid", reader)

    def linked(self, path: Path, folder: Path) -> None:
        """The converted object as a library, behind one that has what it refers to; and its image."""
        other = relocatable([text(NOP * 2), data(bytes(8))],
                            [function("puts", ".text", 0, 4), thing("far", ".data", 0, 4)])
        folder.joinpath("other.o").write_bytes(other)
        for words in ("link -o libother.so --shared libother.so other.o", f"link -o app {path.name} libother.so",
                      "load -o app.img app", "show app.img"):
            ended = subprocess.run([PROGRAM, *words.split()], cwd=folder, capture_output=True, text=True)
            self.assertEqual((ended.returncode, ended.stderr), (0, ""), words)
        self.assertEqual(image.read_report(ended.stdout), image.read(folder / "app.img"))
        reached = [w for w in image.read_report(ended.stdout).words if w.symbol == "far"]
        self.assertTrue(reached and all(w.top - w.base == 4 for w in reached))

    def test_each_compiler(self) -> None:
        for name, compiler in COMPILERS.items():
            with self.subTest(name), tempfile.TemporaryDirectory() as folder:
                if not can_compile(compiler):
                    self.skipTest(f"no {name} for riscv64")
                for made in self.made_by(compiler, Path(folder)):
                    self.read_by_all(made)
                    if PROGRAM:
                        self.linked(made, Path(folder))


class Where(unittest.TestCase):
    def told(self, contents: bytes, offset: int) -> str:
        return "\n".join(where.explain(bytes(contents), offset))

    def test_relocatable(self) -> None:
        o = OBJECTS["main.o"]
        self.assertEqual(self.told(o, FLAGS_AT), "file header, e_flags")
        self.assertIn("section header 3 (.data), sh_size", self.told(o, o.at["header .data"] + 32))
        self.assertIn("symbol 4, st_value: table", self.told(o, o.at["symbol table"] + 8))
        record = self.told(o, o.at["records .data"] + 24 + 16)
        self.assertIn("relocation 1 of .data, r_addend: CAPABILITY of counter, at .data+0x10", record)
        self.assertIn("counter: global label, undefined", record)
        self.assertIn("the field is in table+0x10", record)
        slot = self.told(o, o.at["contents .data"] + 20)
        self.assertIn(".data+0x14 (data)", slot)
        self.assertIn("CAPABILITY of counter + 0, at .data+0x10", slot)
        self.assertIn("behind the end", self.told(o, len(o)))

    def test_shared(self) -> None:
        made = objects.shared([thing("x", 1, 0x2000, 8)], [Relocation(0x2010, "x", 4)], [(0x2020, 0x2000, 2, 8, 0)],
                              needed=["lib.so"])
        self.assertIn("program header 2 (LOAD), p_memsz", self.told(made, 64 + 2 * 56 + 40))
        self.assertIn("symbol 1, st_size: x", self.told(made, made.at["symbol x"] + 16))
        self.assertIn("CAPABILITY of x + 4, slot 0x2010", self.told(made, made.at["relocations"]))
        self.assertIn("entry 0 of __cap_relocs, offset: slot 0x2020, writable data at 0x2000, 8 bytes, cursor 2",
                      self.told(made, made.at["entries"] + 16))
        self.assertIn("NEEDED 0x3 ('lib.so')", self.told(made, made.at["tag 1"]))
        self.assertIn("names, byte 4 'lib.so'", self.told(made, made.at["names"] + 4))
        self.assertIn("hash table, byte 4", self.told(made, made.at["hash"] + 4))

    def test_images(self) -> None:
        memory = bytes(4096)
        word = objects.Word(0x40000010, 0x40000000, 0x007D00000405B004, 0, "x")
        for version in (1, 2):
            made = objects.image([objects.Mapped(0x40000000, "m", memory, [word])], version)
            self.assertEqual(self.told(made, 12), "number of objects")
            self.assertIn("record of object 0, size: m", self.told(made, made.at["record m"] + 8))
            self.assertIn("memory of m, address 0x40000018", self.told(made, made.at["memory m"] + 0x18))
            self.assertIn("granule 0x40000010", self.told(made, made.at["tags m"]))
        self.assertIn("word 0 of m, owner: owner m, symbol x", self.told(made, made.at["words m"] + 4 + 8))


class Images(unittest.TestCase):
    def test_the_image_is_as_its_report(self) -> None:
        shown = image.read(ROOT / "examples" / "app.txt")
        self.assertEqual(image.read(ROOT / "examples" / "app.img"), shown)
        self.assertEqual([image.rights(w.permissions) for w in shown.words][:3], ["rw-RW", "r-xR-", "r--R-"])

    def test_known_words(self) -> None:
        for address, metadata, base, top in [
                (0x40003000, 0x007D00000405B004, 0x40003000, 0x40003010),
                (0x40010000, 0x007D000000018005, 0x40010000, 0x40012000),
                (0x40006000, 0x001720000801A805, 0x40005000, 0x40008000),
                (0x4000032E, 0x0015000004CC832A, 0x4000032E, 0x40000334)]:
            word = image.decoded(address, address, metadata)
            self.assertEqual((word.base, word.top), (base, top))
        null = image.decoded(0, 0, 0)
        self.assertEqual((null.base, null.top, null.permissions, null.seal), (0, 1 << 64, 0, "unsealed"))

    def test_what_moved_is_no_difference(self) -> None:
        report = ROOT.joinpath("examples", "app.txt").read_text()
        one = image.read_report(report)
        moved = image.read_report(re.sub(r"0x([0-9a-f]+)", lambda found: "0x" + format(
            int(found[1], 16) + (0x100000 if int(found[1], 16) >= 0x40000000 else 0), f"0{len(found[1])}x"), report))
        self.assertEqual(list(compare.differences(one, moved)), [])
        less = image.read_report(report.replace("perms 0015", "perms 007d"))
        self.assertEqual(list(compare.differences(one, less)), [
            "- app+0x3000: app+0x2e4, 6 bytes, r--R- unsealed", "+ app+0x3000: app+0x2e4, 6 bytes, rw-RW unsealed"])
        gone = image.Image(one.objects[:2])
        self.assertEqual(list(compare.differences(one, gone)), ["- object libplugin.so, 16384 bytes, 3 words"])

    def test_reach(self) -> None:
        words = image.read(ROOT / "examples" / "app.txt").words
        self.assertEqual(reached_from(words, 0), {0, 2, 3})
        self.assertEqual(reached_from(words, 1), {1})

    def test_reports_that_are_none(self) -> None:
        for report, why in {"": "without its last line", "hello\n": "no report",
                            "objects 1 words 0\n": "objects 0 words 0"}.items():
            with self.assertRaisesRegex(Broken, why):
                image.read_report(report)


def pixels(png: bytes) -> dict[tuple[int, ...], int]:
    """How many pixels a picture has of each colour."""
    width, height, _, kind = struct.unpack(">IIBB", png[16:26])
    channels, at, packed = {2: 3, 6: 4}[kind], 8, b""
    while at < len(png):
        size = struct.unpack(">I", png[at:at + 4])[0]
        packed += png[at + 8:at + 8 + size] if png[at + 4:at + 8] == b"IDAT" else b""
        at += size + 12
    stream, stride = io.BytesIO(zlib.decompress(packed)), width * channels
    before, counts = bytearray(stride), {}
    for _ in range(height):
        how, row = stream.read(1)[0], bytearray(stream.read(stride))
        for i in range(stride) if how else ():
            left, up = row[i - channels] if i >= channels else 0, before[i]
            corner = before[i - channels] if i >= channels else 0
            nearest = min((abs(up - corner), 0, left), (abs(left - corner), 1, up),
                          (abs(left + up - 2 * corner), 2, corner))
            row[i] = (row[i] + [0, left, up, (left + up) // 2, nearest[2]][how]) & 255
        for i in range(0, stride, channels):
            colour = tuple(row[i:i + 3])
            counts[colour] = counts.get(colour, 0) + 1
        before = row
    return counts


CODE, WRITABLE_COLOUR, CHOSEN = (0x3B, 0x6F, 0xB6), (0xD9, 0x82, 0x2B), (0xC2, 0x18, 0x5B)
BROWSER = next((b for b in ("chromium", "chromium-browser", "google-chrome") if shutil.which(b)), "chromium")


def many_words(count: int) -> image.Image:
    """Two objects; each word of the first leads to eight bytes of the second."""
    o, other = (image.Mapped(0x40000000 + 16 * count * k, 16 * count, name) for k, name in enumerate(("many", "other")))
    targets = range(other.base, other.base + 8 * count, 8)
    o.words = [image.Word(o.base + 16 * i, target, target + 8, target, 0x7D, 0, "unsealed", 1, f"x{i}")
               for i, target in enumerate(targets)]
    o.words[0] = image.Word(o.base, o.base, other.base, o.base, 0x7D, 0, "unsealed", 0, "all")
    return image.Image([o, other])


class Picture(unittest.TestCase):
    def browse(self, folder: str, html: str, *flags: str) -> str:
        Path(folder, "page.html").write_text(html)
        ended = subprocess.run([BROWSER, "--headless", "--no-sandbox", "--disable-gpu", "--disable-dev-shm-usage",
                                "--hide-scrollbars",
                                "--window-size=1300,900", "--virtual-time-budget=20000",
                                f"--user-data-dir={folder}/user", *flags, f"file://{folder}/page.html"],
                               capture_output=True, text=True, timeout=120)
        return ended.stdout

    def test_page(self) -> None:
        with tempfile.TemporaryDirectory() as folder:
            made, shown = Path(folder, "p.html"), ROOT / "examples" / "app.txt"
            reached = Path(folder, "reached")
            lines = [line for line in shown.read_text().splitlines() if line.startswith("cap")]
            reached.write_text("\n".join([lines[0], lines[2], lines[3], "reached 3 of 7"]))
            words = ("-o", made, "--word", "0x400020c0", "--reached", reached, shown)
            self.assertEqual(tool("picture.py", *words).returncode, 0)
            self.assertNotRegex(made.read_text(), r"https?://(?!www\.w3\.org/2000/svg)|src=")
            reached.write_text(lines[0])
            self.assertIn("--reached has 1 words", tool("picture.py", *words).stderr)
            self.assertIn("no word at 0x10", tool("picture.py", "-o", made, "--word", "0x10", shown).stderr)

    @needs(BROWSER)
    def test_in_a_browser(self) -> None:
        with tempfile.TemporaryDirectory() as folder:
            html = page(image.read(ROOT / "examples" / "app.img"), "an image", 0)
            dom = self.browse(folder, html, "--dump-dom")
            self.assertIn('data-ready="yes"', dom)
            self.assertNotIn("data-error", dom)
            for kind, count in [("object", 3), ("cell", 4), ("slot", 7), ("bounds", 5), ("chosen", 1), ("step", 2)]:
                found = re.findall(rf'<(?:rect|path|div)[^>]* class="(?:[a-z]+ )*{kind}"', dom)
                self.assertGreaterEqual(len(found), count if kind != "slot" else 2, kind)
            self.assertIn("libplugin.so has 2 to libgreet.so: 1 writable 007d, 1 code 0017", dom)
            self.assertIn("reaches 3 of 7 words", dom)
            self.browse(folder, html, f"--screenshot={folder}/shot.png")
            colours = pixels(Path(folder, "shot.png").read_bytes())
            for colour in (CODE, WRITABLE_COLOUR, CHOSEN):
                self.assertGreater(colours.get(colour, 0), 100, colour)

    @needs(BROWSER)
    def test_clicks(self) -> None:
        clicks = """<script>
            const click = found => found.dispatchEvent(new Event("click"));
            click(document.querySelectorAll(".object")[1]);
            document.body.dataset.closer = byId("range").textContent;
            for (const id of ["closer", "on", "back", "wider", "whole"]) click(byId(id));
            document.body.dataset.whole = byId("range").textContent;
            byId("filter").value = "greeting"; byId("filter").oninput();
            document.body.dataset.filtered = byId("shown").textContent;
            click(document.querySelectorAll(".cell")[1]);
            document.body.dataset.cell = byId("shown").textContent;
            click(document.querySelector("#words tr"));
            document.body.dataset.reach = byId("reach").textContent;
        </script>"""
        with tempfile.TemporaryDirectory() as folder:
            html = page(image.read(ROOT / "examples" / "app.img"), "an image")
            dom = self.browse(folder, html + clicks, "--dump-dom")
        self.assertNotIn("data-error", dom)
        for told in ('data-closer="0x40004000 to 0x40009000"', 'data-whole="0x40000000 to 0x4000d000"',
                     'data-filtered="1 words"', 'data-cell="1 words"', "reaches 1 of 7 words, itself included"):
            self.assertIn(told, dom)

    @needs(BROWSER)
    def test_many_words_in_a_browser(self) -> None:
        with tempfile.TemporaryDirectory() as folder:
            dom = self.browse(folder, page(many_words(1 << 16), "many", 0), "--dump-dom")
            self.assertIn('data-ready="yes"', dom)
            self.assertNotIn("data-error", dom)
            self.assertIn("reaches 65536 of 65536 words", dom)
            self.assertLess(dom.count("<rect"), 30_000)


class Unproved(unittest.TestCase):
    def test_paths_are_made_absolute(self) -> None:
        here = os.getcwd()
        for words, made in {
            "link -o lib.so --shared lib.so a.o /b.o": f"link -o {here}/lib.so --shared lib.so {here}/a.o /b.o",
            "load -o i app open:lib.so": f"load -L {here} -o {here}/i {here}/app open:lib.so",
            "load -o i -L lib app": f"load -o {here}/i -L {here}/lib {here}/app",
            "reach i 0x40": f"reach {here}/i 0x40", "demo 5": "demo 5",
        }.items():
            self.assertEqual(unproved.absolute(words.split()), made.split())


class Help(unittest.TestCase):
    def test_each_tool_has_help(self) -> None:
        for name in ("convert.py", "where.py", "picture.py", "compare.py", "unproved.py"):
            ended = tool(name, "--help")
            self.assertEqual((ended.returncode, ended.stdout.startswith(f"usage: {name}")), (0, True))


if __name__ == "__main__":
    told = unittest.TextTestRunner(verbosity=0, stream=io.StringIO()).run(
        unittest.defaultTestLoader.loadTestsFromModule(sys.modules["__main__"]))
    for test, why in [*told.failures, *told.errors]:
        print(f"{test}: {why}")
    for test, why in told.skipped:
        print(f"skipped: {test}: {why}")
    print(f"tools: {told.testsRun} tests, {len(told.failures) + len(told.errors)} failed, {len(told.skipped)} skipped")
    sys.exit(0 if told.wasSuccessful() else 1)
