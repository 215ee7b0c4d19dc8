"""Images, and the report of one as `purecap show` prints it: both read into the same objects and words.

It shares nothing with the program. The form of both, and of a capability's word, is in docs/FORMATS.md."""
import re
import struct
from dataclasses import dataclass, field
from pathlib import Path

from elf import Broken

MAGIC = b"PURECAPI"
UNSEALED, SENTRY = 262143, 262142
EXECUTE, LOAD, STORE, LOAD_CAPABILITY, STORE_CAPABILITY = 2, 4, 8, 16, 32
IN_MEMORY = 0x00001FFFFC018004  # what the metadata in memory is combined with by XOR


@dataclass
class Word:
    """A tagged granule, decoded. Owner and symbol are of images of version 2."""
    granule: int
    base: int
    top: int
    cursor: int
    permissions: int
    flag: int
    seal: str
    owner: int | None = None
    symbol: str = "-"

    @property
    def loads_capabilities(self) -> bool:
        both = LOAD | LOAD_CAPABILITY
        return self.permissions & both == both and not self.seal.startswith("sealed")


@dataclass
class Mapped:
    """An object of an image."""
    base: int
    size: int
    name: str
    words: list[Word] = field(default_factory=list)


@dataclass
class Image:
    objects: list[Mapped]

    @property
    def words(self) -> list[Word]:
        return [word for o in self.objects for word in o.words]

    def home(self, address: int) -> int | None:
        """The number of the object in which an address lies."""
        return next((i for i, o in enumerate(self.objects) if o.base <= address < o.base + o.size), None)

    def enter(self, word: Word) -> None:
        home = self.home(word.granule)
        if home is None:
            raise Broken(f"a word at {word.granule:#x}, which is in no object")
        self.objects[home].words.append(word)


def bounds(address: int, metadata: int) -> tuple[int, int]:
    """Base and top of a capability's word, by its fields T, B and the exponent."""
    low, high = metadata & 0x3FFF, metadata >> 14 & 0xFFF
    internal = metadata >> 26 & 1
    exponent = 0
    if internal:
        exponent = min((high & 7) << 3 | low & 7, 52)
        low, high = low & ~7, high & ~7
    top = ((low >> 12) + (high < (low & 0xFFF)) + internal) % 4 << 12 | high
    window = 1 << exponent + 14
    start = ((low >> 11) - 1) % 8 << exponent + 11
    floor = address - (address - start) % window
    base = floor + ((low << exponent) - floor) % window
    end = floor + ((top << exponent) - floor) % window
    base, end = base % (1 << 64), end % (1 << 65)
    if exponent < 51 and ((end >> 63) - (base >> 63)) % 4 > 1:
        end ^= 1 << 64
    return base, end


def decoded(granule: int, address: int, in_memory: int) -> Word:
    metadata = in_memory ^ IN_MEMORY
    base, top = bounds(address, metadata)
    kind = metadata >> 27 & 0x3FFFF
    seal = {UNSEALED: "unsealed", SENTRY: "sentry"}.get(kind, f"sealed {kind}")
    return Word(granule, base, top, address, metadata >> 48, metadata >> 45 & 1, seal)


class Front:
    """Bytes that are read from the front."""

    def __init__(self, contents: bytes) -> None:
        self.contents, self.at = contents, 0

    def take(self, size: int) -> bytes:
        if self.at + size > len(self.contents):
            raise Broken("an image that is cut off")
        self.at += size
        return self.contents[self.at - size:self.at]

    def unpack(self, form: str) -> tuple:
        return struct.unpack(form, self.take(struct.calcsize(form)))

    def name(self) -> str:
        return self.take(self.unpack("<H")[0]).decode("latin-1")


def read_image(contents: bytes) -> Image:
    front = Front(contents)
    if front.take(8) != MAGIC:
        raise Broken("no image")
    version, count = front.unpack("<II")
    if version not in (1, 2):
        raise Broken(f"an image of version {version}")
    image = Image([Mapped(*front.unpack("<QQ"), front.name()) for _ in range(count)])
    for o in image.objects:
        memory, tags = front.take(o.size), front.take(o.size // 128)
        for i in (8 * j + bit for j, byte in enumerate(tags) if byte for bit in range(8) if byte >> bit & 1):
            o.words.append(decoded(o.base + 16 * i, *struct.unpack_from("<QQ", memory, 16 * i)))
        if version == 2:
            by_granule = {word.granule: word for word in o.words}
            for _ in range(front.unpack("<I")[0]):
                granule, owner = front.unpack("<QH")
                name = front.name()
                if granule in by_granule:
                    by_granule[granule].owner, by_granule[granule].symbol = owner, name or "-"
    return image


OBJECT_LINE = re.compile(r"object (0x[0-9a-f]{16}) (0x[0-9a-f]{16}) (.*)")
WORD_LINE = re.compile(r"cap (0x[0-9a-f]{16}) base (0x[0-9a-f]{16}) top (0x[0-9a-f]{17}) cursor (0x[0-9a-f]{16}) "
                       r"perms ([0-9a-f]{4}) flag ([01]) (unsealed|sentry|sealed \d+)(?: owner (\d+) symbol (.*))?")


def word_of_line(line: str) -> Word | None:
    found = WORD_LINE.fullmatch(line)
    if not found:
        return None
    granule, base, top, cursor, permissions, flag, seal, owner, symbol = found.groups()
    return Word(*(int(x, 16) for x in (granule, base, top, cursor, permissions)), int(flag), seal,
                None if owner is None else int(owner), symbol or "-")


def read_report(text: str) -> Image:
    """What `purecap show` printed."""
    image = Image([])
    for line in text.splitlines():
        word, found = word_of_line(line), OBJECT_LINE.fullmatch(line)
        if found:
            image.objects.append(Mapped(int(found[1], 16), int(found[2], 16), found[3]))
        elif word:
            image.enter(word)
        elif re.fullmatch(r"objects \d+ words \d+", line):
            told = f"objects {len(image.objects)} words {len(image.words)}"
            if line != told:
                raise Broken(f"a report that ends with '{line}', where '{told}' is right")
            return image
        elif not line.startswith("$ "):
            raise Broken(f"no report of an image: '{line[:60]}'")
    raise Broken("a report without its last line")


def read(path: Path) -> Image:
    """An image, or a report of one."""
    contents = path.read_bytes()
    return read_image(contents) if contents.startswith(MAGIC) else read_report(contents.decode("latin-1"))


def rights(permissions: int) -> str:
    """The rights to what a capability reaches, in the letters of a listing: read, write, execute, and in capitals those
    to load and to store capabilities."""
    letters = [(LOAD, "r"), (STORE, "w"), (EXECUTE, "x"), (LOAD_CAPABILITY, "R"), (STORE_CAPABILITY, "W")]
    return "".join(letter if permissions & bit else "-" for bit, letter in letters)
