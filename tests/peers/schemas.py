"""The model's schemas: what a text declares, or its first fault."""
import json
import re

PRIMITIVES = ("null", "boolean", "int", "long", "bytes", "string")
NAMED = ("record", "enum", "fixed")
NAME = re.compile(r"[A-Za-z_][A-Za-z0-9_]*\Z")
RANGES = {"int": (-(1 << 31), (1 << 31) - 1), "long": (-(1 << 63), (1 << 63) - 1)}
DEEP = 200
TEXT_BYTES, NODES, FIELDS, SYMBOLS, FIXED_BYTES = 262144, 1024, 1024, 4096, 1048576


class BadSchema(Exception):
    """A text that declares no schema; the first argument is the fault's name."""


class Refused(Exception):
    """A library's refusal, for a reason that the specification does not have."""


class Number(float):
    """A JSON number that is no whole one in range."""


class Node:
    def __init__(self, kind, number):
        self.kind, self.number = kind, number
        self.full = self.short = None
        self.fields, self.symbols, self.members, self.aliases = [], [], [], []
        self.default = self.size = self.items = None


class Field:
    def __init__(self, name, value):
        self.name = name
        self.has_default = "default" in value
        self.json = value.get("default")
        self.aliases = value.get("aliases", [])
        self.node = self.default = None


class Pairs(list):
    """A map's datum: its pairs of a key's bytes and a value, and how many its first block had."""

    def __init__(self, pairs=(), first=0):
        super().__init__(pairs)
        self.first = first


def load(text):
    """The JSON value of a text, with `Number` for each number that is no whole one or out of range."""
    def whole(digits):
        number = int(digits)
        return number if -(1 << 63) <= number < 1 << 64 and digits != "-0" else Number(digits)

    def none(word):
        raise ValueError(word)
    try:
        value = json.loads(text, parse_int=whole, parse_float=Number, parse_constant=none)
        json.dumps(value, ensure_ascii=False).encode()  # fails on half a surrogate pair
    except ValueError:
        raise BadSchema("NotJson") from None
    return value


def parts_of(value):
    return list(value.values()) if isinstance(value, dict) else value if isinstance(value, list) else []


def has_number(value):
    return isinstance(value, Number) or any(map(has_number, parts_of(value)))


def depth_of(value):
    return 1 + max(map(depth_of, parts_of(value)), default=0) if isinstance(value, (dict, list)) else 0


def is_text(value):
    return isinstance(value, str)


class Parser:
    def __init__(self, switches):
        self.take = switches.take
        self.nodes, self.names, self.defaults = [], {}, []

    def parse(self, text):
        """The root of the schema that the text declares."""
        if len(text.encode()) > TEXT_BYTES and not self.take("schema-limits"):
            raise BadSchema("TooLarge")
        value = load(text)
        if depth_of(value) > 127 and not self.take("schema-limits"):
            raise BadSchema("NotJson")
        if has_number(value) and not self.take("numbers-unchecked"):
            raise BadSchema("BadNumber")
        root = self.walk(value, "")
        for field in self.defaults:
            self.check_default(field)
        return root

    def check_default(self, field):
        try:
            field.default = default_of(field.node, field.json, self.take)
        except BadSchema:
            if not (self.take("default-when-used") or self.take("default-when-resolved")):
                raise

    def node(self, kind):
        if len(self.nodes) >= NODES and not self.take("schema-limits"):
            raise BadSchema("TooLarge")
        node = Node(kind, len(self.nodes))
        self.nodes.append(node)
        return node

    def walk(self, value, space):
        if is_text(value):
            return self.reference(value, space)
        if isinstance(value, list):
            return self.union(value, space)
        if not isinstance(value, dict) or "type" not in value:
            raise BadSchema("Unknown")
        word = value["type"]
        if word == "error":
            raise BadSchema("OutOfProfile")
        if is_text(word) and word in ("record", "enum", "fixed", "array", "map"):
            return getattr(self, word)(value, space)
        if not (is_text(word) and word in PRIMITIVES) and self.take("object-only-for-types"):
            raise BadSchema("object")
        return self.walk(word, space)

    def reference(self, name, space):
        if name in PRIMITIVES:
            return self.node(name)
        if name in ("float", "double"):
            raise BadSchema("OutOfProfile")
        full = name if "." in name or not space else space + "." + name
        if full in self.names:
            return self.names[full]
        if "." not in name and name in self.names and self.take("null-namespace-searched"):
            return self.names[name]
        raise BadSchema("Unknown")

    def union(self, value, space):
        node = self.node("union")
        node.members = [self.walk(member, space) for member in value]
        seen = set()
        for member in node.members:
            key = member.full or member.kind
            if member.kind == "union" or key in seen and not (member.full and self.take("member-twice")):
                raise BadSchema("BadUnion")
            seen.add(key)
        return node

    def array(self, value, space):
        node = self.node("array")
        if "items" not in value:
            raise BadSchema("Unknown")
        node.items = self.walk(value["items"], space)
        return node

    def map(self, value, space):
        node = self.node("map")
        if "values" not in value:
            raise BadSchema("Unknown")
        node.items = self.walk(value["values"], space)
        return node

    def is_name(self, name):
        if NAME.match(name):
            return True
        return all(c.isalnum() or c == "_" for c in name) and not name[:1].isdigit() and name != "" and self.take("names-in-any-letters")

    def named(self, node, value, space):
        """Gives the node its name, and answers the namespace inside it."""
        name = value.get("name")
        if not is_text(name):
            raise BadSchema("Unknown")
        inner = space
        if "." in name:
            inner, name = name.rsplit(".", 1)
            if inner == "":
                raise BadSchema("BadName")
        elif "namespace" in value:
            inner = value["namespace"]
            if not is_text(inner):
                raise BadSchema("Unknown")
        own = space if inner == "" and space != "" and self.take("empty-namespace-inherits") else inner
        if not self.is_name(name) or not all(NAME.match(part) for part in inner.split(".") if inner) and not self.take("namespace-unchecked"):
            raise BadSchema("BadName")
        if name in PRIMITIVES + ("float", "double") and not (own and self.take("primitive-last-part")):
            raise BadSchema("BadName")
        node.short, node.full = name, own + "." + name if own else name
        if node.full in self.names:
            raise BadSchema("Redefined")
        self.names[node.full] = node
        node.aliases = [alias if "." in alias or not own else own + "." + alias for alias in value.get("aliases", [])]
        return space if inner == "" and space != "" and self.take("empty-namespace-keeps-outer") else inner

    def record(self, value, space):
        node = self.node("record")
        inner = self.named(node, value, space)
        if not isinstance(value.get("fields"), list):
            raise BadSchema("Unknown")
        for given in value["fields"]:
            self.field(node, given, inner)
        return node

    def field(self, node, given, space):
        if not isinstance(given, dict):
            raise BadSchema("Unknown")
        if len(node.fields) >= FIELDS and not self.take("schema-limits"):
            raise BadSchema("TooLarge")
        name = given.get("name")
        if not is_text(name):
            raise BadSchema("Unknown")
        if any(field.name == name for field in node.fields):
            raise BadSchema("BadName")
        if not self.is_name(name) and not (name and self.take("field-name-unchecked")):
            raise BadSchema("BadName")
        field = Field(name, given)
        if "type" not in given:
            raise BadSchema("Unknown")
        field.node = self.walk(given["type"], space)
        if field.has_default:
            self.defaults.append(field)
        node.fields.append(field)

    def enum(self, value, space):
        node = self.node("enum")
        self.named(node, value, space)
        symbols = value.get("symbols")
        if not isinstance(symbols, list) or not all(map(is_text, symbols)):
            raise BadSchema("Unknown")
        if len(set(symbols)) < len(symbols) or not all(map(self.is_name, symbols)):
            raise BadSchema("BadSymbols")
        if len(symbols) > SYMBOLS and not self.take("schema-limits"):
            raise BadSchema("TooLarge")
        node.symbols, node.default = symbols, value.get("default")
        if "default" in value and node.default not in symbols and not self.take("enum-default-unchecked"):
            raise BadSchema("BadSymbols")
        return node

    def fixed(self, value, space):
        node = self.node("fixed")
        self.named(node, value, space)
        node.size = value.get("size")
        if not isinstance(node.size, int) or isinstance(node.size, bool):
            raise BadSchema("BadNumber" if isinstance(node.size, Number) else "Unknown")
        if node.size < 0:
            raise BadSchema("BadNumber")
        if node.size > FIXED_BYTES and not self.take("schema-limits"):
            raise BadSchema("TooLarge")
        return node


def default_of(node, value, take, depth=0):
    """The datum of a node that a JSON value is, by the specification."""
    kind = node.kind
    if depth > DEEP:
        raise BadSchema("a default without end")
    if kind == "null" and value is None or kind == "boolean" and isinstance(value, bool):
        return value
    if kind in RANGES and isinstance(value, int) and not isinstance(value, bool) and RANGES[kind][0] <= value <= RANGES[kind][1]:
        return value
    if kind == "string" and is_text(value):
        return value.encode()
    if kind in ("bytes", "fixed") and is_text(value) and all(ord(c) < 256 for c in value) and (kind == "bytes" or len(value) == node.size):
        return value.encode() if not value.isascii() and take("default-in-utf8") else value.encode("latin-1")
    if kind == "enum" and value in node.symbols:
        return node.symbols.index(value)
    if kind == "array" and isinstance(value, list):
        return [default_of(node.items, item, take, depth + 1) for item in value]
    if kind == "map" and isinstance(value, dict):
        keys = list(value)
        if keys != sorted(keys, key=str.encode) and not take("default-pairs-in-order"):
            keys.sort(key=str.encode)
        return Pairs([(key.encode(), default_of(node.items, value[key], take, depth + 1)) for key in keys], len(keys))
    if kind == "union" and node.members:
        return (0, default_of(node.members[0], value, take, depth + 1))
    if kind == "record" and isinstance(value, dict):
        return {index: default_of(field.node, field_default(field, value, take), take, depth + 1) for index, field in enumerate(node.fields)}
    raise BadSchema("BadDefault")


def field_default(field, value, take):
    """What the JSON value of a record's default has for one of its fields."""
    if field.name in value:
        return value[field.name]
    if field.has_default and take("default-fields-filled"):
        return field.json
    raise BadSchema("BadDefault")
