"""The model's writing of a datum by the reader's schema."""
from schemas import RANGES, Refused


def number(value):
    value = value * 2 if value >= 0 else -2 * value - 1
    out = bytearray()
    while value > 127:
        out.append(value & 127 | 128)
        value >>= 7
    out.append(value)
    return bytes(out)


def sized(content):
    return number(len(content)) + content


def listed(items):
    """The one written form of items or pairs."""
    return number(len(items)) + b"".join(items) + b"\0" if items else b"\0"


class Writer:
    """Writes data by their own tags."""

    def __init__(self, switches):
        self.take = switches.take

    def write(self, node, datum):
        kind = node.kind
        if kind in ("string", "bytes"):
            return sized(datum)
        if kind == "array":
            return listed([self.write(node.items, item) for item in datum])
        if kind == "map":
            return listed([sized(mended(key)) + self.write(node.items, value) for key, value in self.arranged(datum)])
        if kind == "union":
            return number(datum[0]) + self.write(node.members[datum[0]], datum[1])
        if kind == "record":
            return b"".join(self.write(field.node, datum[index]) for index, field in enumerate(node.fields))
        return plain(node, datum)

    def arranged(self, pairs):
        if len(pairs) > 1 and self.take("map-in-hash-order"):
            return in_hash_order(pairs, pairs.first)
        return pairs


def plain(node, datum):
    """A datum without parts; a library comes upon one here that is none of its type, where a default or a number was not checked."""
    kind = node.kind
    if kind in RANGES and RANGES[kind][0] <= datum <= RANGES[kind][1]:
        return number(int(datum))
    if kind == "enum" and isinstance(datum, int):
        return number(datum)
    if kind == "fixed" and len(datum) == node.size:
        return datum
    if kind == "boolean":
        return b"\1" if datum else b"\0"
    if kind == "null":
        return b""
    raise Refused("no value of its type")


def mended(key):
    """A key as a Java string: bytes that are no UTF-8 become U+FFFD."""
    return key.decode("utf-8", "replace").encode()


def in_hash_order(pairs, first):
    """The order of Java's HashMap, made for so many pairs and grown to hold all."""
    size = 1
    while size < first:
        size *= 2
    while len(pairs) > size * 3 // 4:
        size *= 2
    return sorted(pairs, key=lambda pair: bucket(pair[0], size))


def bucket(key, size):
    code = 0
    for byte in key:
        code = (code * 31 + byte - (256 if byte > 127 else 0)) % (1 << 32)
    return (code ^ code >> 16) & size - 1


class ValueWriter:
    """Writes plain values, which have no tags: each union's member is found again from the value."""

    def write_datum(self, node, datum):
        value = value_of(node, datum)
        if not fits(node, value):
            raise Refused("no value of the schema")
        return self.write(node, value)

    def write(self, node, value):
        kind = node.kind
        if kind == "union":
            fitting = [index for index, member in enumerate(node.members) if fits(member, value)]
            if not fitting:
                raise Refused("no member")
            return number(fitting[-1]) + self.write(node.members[fitting[-1]], value)
        if kind == "array":
            return listed([self.write(node.items, item) for item in value])
        if kind == "map":
            return listed([sized(key.encode()) + self.write(node.items, item) for key, item in value])
        if kind == "record":
            fields = dict(value)
            return b"".join(self.write(field.node, fields.get(field.name)) for field in node.fields)
        if kind in ("string", "bytes"):
            return sized(value if kind == "bytes" else value.encode())
        return plain(node, node.symbols.index(value) if kind == "enum" else value)


class Keyed(list):
    """The value of a map or a record: names and values."""


def value_of(node, datum):
    kind = node.kind
    if kind == "union":
        return value_of(node.members[datum[0]], datum[1])
    if kind == "record":
        return Keyed((node.fields[index].name, value_of(node.fields[index].node, part)) for index, part in datum.items())
    if kind == "map":
        return Keyed((key.decode("utf-8", "replace"), value_of(node.items, part)) for key, part in datum)
    if kind == "array":
        return [value_of(node.items, part) for part in datum]
    if kind == "string":
        return datum.decode("utf-8", "replace")
    if kind == "enum" and isinstance(datum, int):
        return node.symbols[datum]
    return datum


def fits(node, value):
    """Whether a value is valid, where of a union only the first member counts that looks right from outside."""
    if node.kind == "union":
        node = next((member for member in node.members if looks_right(member, value)), None)
        return node is not None and parts_fit(node, value)
    return looks_right(node, value) and parts_fit(node, value)


def looks_right(node, value):
    kind = node.kind
    if kind in RANGES:
        return isinstance(value, int) and RANGES[kind][0] <= value <= RANGES[kind][1]
    if kind == "record":
        return isinstance(value, Keyed) and {name for name, _ in value} <= {field.name for field in node.fields}
    if kind == "array":
        return isinstance(value, list) and not isinstance(value, Keyed)
    if kind == "fixed":
        return isinstance(value, bytes) and len(value) == node.size
    if kind == "enum":
        return isinstance(value, str) and value in node.symbols
    types = {"null": type(None), "boolean": bool, "string": str, "bytes": bytes, "map": Keyed}
    return isinstance(value, types[kind])


def parts_fit(node, value):
    if node.kind == "array":
        return all(fits(node.items, part) for part in value)
    if node.kind == "map":
        return all(fits(node.items, part) for _, part in value)
    if node.kind == "record":
        fields = dict(value)
        return all(fits(field.node, fields.get(field.name)) for field in node.fields)
    return True
