"""Random payloads of a schema: valid ones in any spelling, and broken ones."""
from random_schemas import TEXTS

DEEP = 40


class NoPayload(Exception):
    """A type without finite data."""


def pairs(value):
    return value * 2 if value >= 0 else -2 * value - 1


def spelled(code, more=0):
    """The bytes of a number, with so many more than it needs."""
    out = bytearray()
    while code > 127:
        out.append(code & 127 | 128)
        code >>= 7
    out.append(code)
    for _ in range(more):
        out[-1] |= 128
        out.append(0)
    return bytes(out)


class Encoder:
    """Encodes random data. `wild` is how often a part is spelled as it must not be."""

    def __init__(self, random, wild=0.0):
        self.random, self.wild = random, wild

    def chance(self, part):
        return self.random.random() < part

    def number(self, value, bits=64):
        width = 5 if bits == 32 else 10
        out = spelled(pairs(value))
        if self.chance(self.wild):
            return self.bad_number(value, width)
        if self.chance(0.01):
            return spelled(pairs(value), self.random.randrange(width - len(out) + 1))
        return out

    def bad_number(self, value, width):
        full = spelled(pairs(value), width - len(spelled(pairs(value))))
        if self.chance(0.5):
            return full[:-1] + bytes([full[-1] | self.random.choice((2, 16, 64, 112))])
        return spelled(pairs(value), width - len(spelled(pairs(value))) + self.random.choice((1, 2)))

    def some_number(self, bits):
        edge = 1 << bits - 1
        return self.random.choice((0, 1, -1, 27, 64, -65, self.random.randrange(-1000, 1000), self.random.randrange(-edge, edge), edge - 1, -edge))

    def position(self, count):
        """A position below a count; a wild one is not."""
        if self.chance(self.wild):
            return self.number(self.random.choice((-1, -2, -count - 1, count, count + 3)), 32)
        if count == 0:
            raise NoPayload()
        return self.number(self.random.randrange(count), 32)

    def sized(self, content):
        length = -self.random.randrange(1, 9) if self.chance(self.wild) else len(content)
        return self.number(length) + content

    def text(self):
        content = self.random.choice(TEXTS).encode()
        return self.sized(self.random.choice((b"\xff", b"a\xc3", b"\xed\xa0\x80", b"\xf0\x9f\x98")) if self.chance(self.wild) else content)

    def boolean(self):
        return bytes([self.random.randrange(2, 256) if self.chance(self.wild) else self.random.randrange(2)])

    def content(self):
        if self.chance(0.6):
            return self.random.choice(TEXTS).encode()
        return bytes(self.random.randrange(256) for _ in range(self.random.randrange(6)))

    def blocks(self, item, depth):
        out, left = b"", 0 if depth > 6 else self.random.choice((0, 0, 1, 1, 2, 3, 5))
        while left > 0:
            count = self.random.randrange(1, left + 1) if self.chance(0.4) else left
            items = b"".join(item() for _ in range(count))
            if self.chance(0.3):
                size = len(items) + (self.random.choice((-1, 1, 5, -len(items) - 3)) if self.chance(self.wild * 3) else 0)
                out += self.number(-count) + self.number(size) + items
            else:
                out += self.number(count) + items
            left -= count
        return out + self.number(0)

    def key(self, keys):
        keys.append(self.random.choice(keys) if keys and self.chance(0.05) else self.random.choice(TEXTS) + str(self.random.randrange(30)))
        return b"\x04\xc3\x28" if self.chance(self.wild) else self.sized(keys[-1].encode())

    def of(self, node, depth=0):
        kind = node["kind"]
        if depth > DEEP:
            raise NoPayload()
        if kind in ("int", "long"):
            return self.number(self.some_number(32 if kind == "int" else 64), 32 if kind == "int" else 64)
        if kind == "union":
            return self.member(node["members"], depth)
        if kind == "record":
            return b"".join(self.of(field["type"], depth + 1) for field in node["fields"])
        if kind == "array":
            return self.blocks(lambda: self.of(node["items"], depth + 1), depth)
        if kind == "map":
            keys = []
            return self.blocks(lambda: self.key(keys) + self.of(node["items"], depth + 1), depth)
        if kind == "enum":
            return self.position(len(node["symbols"]))
        leaves = {"null": lambda: b"", "boolean": self.boolean, "string": self.text, "bytes": lambda: self.sized(self.content())}
        return leaves[kind]() if kind in leaves else bytes(self.random.randrange(256) for _ in range(node["size"]))

    def member(self, members, depth):
        if self.chance(self.wild):
            return self.position(len(members)) + self.content()
        if not members:
            raise NoPayload()
        simple = [index for index, member in enumerate(members) if member["kind"] not in ("record", "array", "map")]
        index = self.random.choice(simple) if depth > 6 and simple else self.random.randrange(len(members))
        return self.number(index, 32) + self.of(members[index], depth)


def valid(random, node):
    try:
        return Encoder(random).of(node)
    except NoPayload:
        return bytes(random.randrange(4) for _ in range(random.randrange(4)))


def broken(random, node):
    """A payload that is most often faulty: cut, longer, with another byte, or spelled as it must not be."""
    data = valid(random, node)
    what = random.randrange(6)
    if what == 0:
        return data[:random.randrange(len(data) + 1)]
    if what == 1:
        return data + bytes(random.randrange(256) for _ in range(random.randrange(1, 4)))
    if what == 2 and data:
        at = random.randrange(len(data))
        return data[:at] + bytes([data[at] ^ 1 << random.randrange(8)]) + data[at + 1:]
    try:
        return Encoder(random, random.choice((0.05, 0.15, 0.3))).of(node)
    except NoPayload:
        return data
