"""A model of the format that shares nothing with the library, and bytes that a generator makes, for tests/run/hostile and tests/run/pieces."""
import functools
import itertools
import random

ENDS, CUT, RESERVED = "Err InvalidMarkerRead", "Err InvalidDataRead", "Err TypeMismatch(Reserved)"
DEEP, NO_UTF8 = "Err DepthLimitExceeded", "Err Utf8Error"


class Refused(Exception):
    pass


def number(data, at, width, signed=False):
    if at + width > len(data):
        raise Refused(CUT)
    return int.from_bytes(data[at : at + width], "big", signed=signed)


def head(data, at):
    """The head at a place: its kind, its number, its type where it is an extension's, and where it ends."""
    if at >= len(data):
        raise Refused(ENDS)
    b = data[at]
    at += 1
    if b < 0x80 or b >= 0xE0:
        return "number", b - 256 * (b >= 0xE0), None, at
    if b < 0xC0:
        kind, least = ("map", 0x80) if b < 0x90 else ("list", 0x90) if b < 0xA0 else ("text", 0xA0)
        return kind, b - least, None, at
    if b == 0xC1:
        raise Refused(RESERVED)
    if b in (0xC0, 0xC2, 0xC3):
        return ("nil" if b == 0xC0 else "truth"), b & 1, None, at
    if b in (0xCA, 0xCB):
        width = 4 if b == 0xCA else 8
        return f"float{8 * width}", number(data, at, width), None, at + width
    if 0xCC <= b <= 0xD3:
        width = 1 << ((b - 0xCC) & 3)
        return "number", number(data, at, width, b >= 0xD0), None, at + width
    if 0xD4 <= b <= 0xD8:
        return "ext", 1 << (b - 0xD4), number(data, at, 1, True), at + 1
    kind, first, widths = next(it for it in LONG if it[1] <= b < it[1] + len(it[2]))
    width = widths[b - first]
    length = number(data, at, width)
    at += width
    if kind == "ext":
        return kind, length, number(data, at, 1, True), at + 1
    return kind, length, None, at


# The kinds whose length has bytes of its own: their first bytes, and how many bytes the length has. Then those with a byte for each small length.
LONG = [("bytes", 0xC4, (1, 2, 4)), ("ext", 0xC7, (1, 2, 4)), ("text", 0xD9, (1, 2, 4)), ("list", 0xDC, (2, 4)), ("map", 0xDE, (2, 4))]
SMALL = {"text": (0xA0, 32), "list": (0x90, 16), "map": (0x80, 16)}


def heads(kind, n, tag=None):
    """The heads of a kind and a number, in all widths, the canonical one first."""
    if kind == "nil":
        return [b"\xc0"]
    if kind == "truth":
        return [bytes([0xC2 + n])]
    if kind.startswith("float"):
        width = int(kind[5:]) // 8
        return [(b"\xca" if width == 4 else b"\xcb") + n.to_bytes(width, "big")]
    found = []
    if kind == "number":
        if -32 <= n < 128:
            found.append(bytes([n & 255]))
        for first, signed in ((0xCC, False), (0xD0, True)):
            for i in range(4):
                try:
                    found.append(bytes([first + i]) + n.to_bytes(1 << i, "big", signed=signed))
                except OverflowError:
                    pass
        return found
    if kind in SMALL and n < SMALL[kind][1]:
        found.append(bytes([SMALL[kind][0] + n]))
    last = tag.to_bytes(1, "big", signed=True) if kind == "ext" else b""
    if kind == "ext" and n in (1, 2, 4, 8, 16):
        found.append(bytes([0xD4 + n.bit_length() - 1]) + last)
    _, first, widths = next(it for it in LONG if it[0] == kind)
    return found + [bytes([first + i]) + n.to_bytes(width, "big") + last for i, width in enumerate(widths) if n < 256**width]


class Walk:
    """The message at the front of bytes, head by head: how it ends, and what was met before."""

    def __init__(self, data, limit=None, utf8=False):
        self.places, self.wide, self.nodes, self.end = [], [], [], None
        at, wanted = 0, [1]
        try:
            while wanted:
                if wanted[-1] == 0:
                    wanted.pop()
                    continue
                wanted[-1] -= 1
                self.places.append(at)
                kind, n, tag, end = head(data, at)
                if data[at:end] != heads(kind, n, tag)[0]:
                    self.wide.append(at)
                content = b""
                if kind in ("text", "bytes", "ext"):
                    content = data[end : end + n]
                    if len(content) < n:
                        raise Refused(CUT)
                    if kind == "text" and utf8:
                        try:
                            content.decode()
                        except UnicodeDecodeError:
                            raise Refused(NO_UTF8) from None
                if kind in ("list", "map"):
                    if limit and len(wanted) >= limit:
                        raise Refused(DEEP)
                    wanted.append(n * (1 + (kind == "map")))
                self.nodes.append((kind, n, tag, content))
                at = end + len(content)
            self.end = at
            self.answer = "Ok"
        except Refused as refused:
            self.answer = str(refused)

    def canonical(self):
        return b"".join(heads(*node[:3])[0] + node[3] for node in self.nodes)

    def spellings(self, most):
        """All spellings of the message, the canonical one first, or some of them where there are many."""
        choices = [[it + node[3] for it in heads(*node[:3])] for node in self.nodes]
        total = 1
        for it in choices:
            total *= len(it)
        if total <= most:
            return [b"".join(it) for it in itertools.product(*choices)]
        chooser = random.Random(len(choices))
        some = {b"".join(chooser.choice(it) for it in choices) for _ in range(most)}
        return [self.canonical(), *sorted(some)]


@functools.lru_cache(None)
def walk(data, limit=None, utf8=False):
    """The walk over these bytes, which many types are given."""
    return Walk(data, limit, utf8)


def claims():
    """Heads that claim all that they can, with few bytes after them."""
    for first in (*range(0xC4, 0xCA), *range(0xD4, 0xE0), 0x8F, 0x9F, 0xBF):
        width = next((it[2][first - it[1]] for it in LONG if it[1] <= first < it[1] + len(it[2])), 0)
        claim = bytes([first]) + b"\xff" * width
        for rest in (b"", b"\x01", b"\x01\x61\x00", b"\xff" * 20, b"\x90" * 40):
            yield claim + rest
    for first in (0xDD, 0xDF, 0xDB, 0xC6, 0xC9):
        yield b"\x92" + bytes([first]) + b"\xff\xff\xff\xff"
        yield (bytes([first]) + b"\xff\xff\xff\xff") * 60
        yield bytes([first]) + b"\x7f\xff\xff\xff" + b"\x00" * 60


def made(chooser, depth=0):
    """A message, in widths at random, as a list of bytes of which each begins with a head."""
    kinds = ["number"] * 4 + ["text", "bytes", "ext", "nil", "truth", "float32", "float64"] + ["list", "map"] * (2 * (depth < 4))
    kind = chooser.choice(kinds)
    n, tag, content = 0, None, b""
    if kind == "number":
        n = chooser.choice([-1, 1]) * chooser.getrandbits(chooser.choice([3, 5, 7, 8, 15, 16, 31, 32, 63]))
    elif kind in ("text", "bytes", "ext"):
        n = chooser.choice([0, 1, 2, 3, 4, 8, 16, chooser.randrange(40)])
        tag = chooser.randrange(-128, 128)
        letters = b"abz\xc3\xa9" if chooser.random() < 0.1 else b"abz"
        content = bytes(chooser.choice(letters) for _ in range(n))
    elif kind == "truth":
        n = chooser.randrange(2)
    elif kind.startswith("float"):
        n = chooser.getrandbits(int(kind[5:]))
    elif kind in ("list", "map"):
        n = chooser.choice([0, 1, 1, 2, 2, 3, 17 * (depth == 3)])
    widths = heads(kind, n, tag)
    found = [(chooser.choice(widths) if chooser.random() < 0.3 else widths[0]) + content]
    for _ in range(n * (kind in ("list", "map")) * (1 + (kind == "map"))):
        found += made(chooser, depth + 1)
    return found


def spoiled(chooser, data):
    """The same bytes but for one change, or none."""
    change = chooser.randrange(6)
    at = chooser.randrange(len(data) + 1)
    if change == 1:
        return data[:at]
    if change == 2:
        return data[:at] + bytes([chooser.randrange(256)]) + data[at + 1 :]
    if change == 3:
        return data[:at] + data[at + 1 :]
    if change == 4:
        return data[:at] + bytes([chooser.choice([0xC1, 0x91, 0x81, 0xA1, 0xC0, 0xDC, 0xDD, 0xFF])]) + data[at:]
    return data
