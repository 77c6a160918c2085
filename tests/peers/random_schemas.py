"""Random schemas.

A schema is a graph of dicts: `kind`, and for named types `space` and `name`; a type that is used twice is the same dict. `holder` is a dict
whose `type` is the root, so that each place of a type is a slot: a container and a key."""
PRIMITIVES = ("null", "boolean", "int", "long", "bytes", "string")
NAMED = ("record", "enum", "fixed")
SYMBOLS = ["RED", "GREEN", "BLUE", "BLACK", "WHITE", "_0"]
NAMES = ["Order", "Item", "Point", "Tag", "Kind", "Hash", "Node", "Leaf"]
FIELDS = ["id", "count", "name", "next", "kind", "data", "tags", "left", "right", "note"]
TEXTS = ["", "a", "foo", "gift", "größer", "日本", "\U0001f600", "RED", "x" * 70]
SPACES = ["n", "n.a", "m", "org.example"]


class Impossible(Exception):
    """No finite value."""


class Maker:
    def __init__(self, random):
        self.random = random
        style = random.random()
        self.spaces = [""] if style < 0.5 else [random.choice(SPACES)] if style < 0.8 else SPACES[:3] if style < 0.96 else ["", "n"]
        self.types, self.open = [], []

    def schema(self):
        return {"type": self.type(self.random.choice((1, 2, 2, 3)))}

    def type(self, depth, in_union=False):
        choices = ["primitive"] * (4 if depth else 9) + ["enum", "fixed"] + ["known"] * 2
        if depth:
            choices += ["record"] * 5 + ["array", "map"] * 2 + ["union"] * (0 if in_union else 4)
        made = getattr(self, self.random.choice(choices))(depth - 1)
        return self.type(0, True) if in_union and made["kind"] == "union" else made

    def primitive(self, _):
        return {"kind": self.random.choice(PRIMITIVES)}

    def known(self, depth):
        """A type that is there already; a record inside itself lies in a union, an array or a map."""
        if not self.types:
            return self.primitive(depth)
        node = self.random.choice(self.types)
        if not any(node is record for record in self.open):
            return node
        around = self.random.choice(["union", "array", "map"])
        if around == "union":
            members = [{"kind": "null"}, node]
            return {"kind": "union", "members": members if self.random.random() < 0.8 else members[::-1]}
        return {"kind": around, "items": node}

    def named(self, kind):
        taken = [(node["space"], node["name"]) for node in self.types]
        node = {"kind": kind, "space": self.random.choice(self.spaces), "name": self.random.choice(NAMES)}
        while (node["space"], node["name"]) in taken:
            node["name"] = self.random.choice(NAMES) + str(self.random.randrange(100))
        self.types.append(node)
        return node

    def record(self, depth):
        node = self.named("record")
        node["fields"] = []
        self.open.append(node)
        for name in self.random.sample(FIELDS, self.random.choice((0, 1, 2, 2, 3, 3, 4, 5))):
            node["fields"].append(self.field(name, depth))
        self.open.pop()
        return node

    def field(self, name, depth):
        field = {"name": name, "type": self.type(max(depth, 0))}
        if self.random.random() < 0.3:
            self.give_default(field)
        return field

    def give_default(self, field):
        try:
            field["default"] = self.default(field["type"], 0)
        except Impossible:
            field.pop("default", None)

    def enum(self, _):
        node = self.named("enum")
        node["symbols"] = self.random.sample(SYMBOLS, self.random.randrange(1, 6))
        if self.random.random() < 0.3:
            node["default"] = self.random.choice(node["symbols"])
        return node

    def fixed(self, _):
        node = self.named("fixed")
        node["size"] = self.random.choice((0, 1, 2, 4, 16))
        return node

    def array(self, depth):
        return {"kind": "array", "items": self.type(depth)}

    def map(self, depth):
        return {"kind": "map", "items": self.type(depth)}

    def union(self, depth):
        members = [self.type(depth, True) for _ in range(self.random.choice((1, 2, 2, 2, 3, 3, 4, 6)))]
        if self.random.random() < 0.5:
            members.insert(0, {"kind": "null"})
        if self.random.random() < 0.01:
            members = []
        return {"kind": "union", "members": distinct(members)}

    def default(self, node, depth):
        """The JSON of some value of a type."""
        random, kind = self.random, node["kind"]
        if depth > 5:
            raise Impossible()
        if kind in ("int", "long"):
            bits = 31 if kind == "int" else 63
            return random.choice((0, 1, -1, 7, 1000, (1 << bits) - 1, -(1 << bits)))
        if kind in ("null", "boolean"):
            return None if kind == "null" else random.random() < 0.5
        if kind in ("bytes", "fixed"):
            count = node.get("size", random.choice((0, 1, 3)))
            return "".join(chr(random.choice((0, 65, 97, 127)) if random.random() < 0.85 else random.randrange(128, 256)) for _ in range(count))
        if kind == "enum":
            return random.choice(node["symbols"])
        if kind == "array":
            return [self.default(node["items"], depth + 1) for _ in range(random.choice((0, 0, 1, 3)))]
        if kind == "map":
            return {key: self.default(node["items"], depth + 1) for key in random.sample(["b", "a", "é", "key", ""], random.choice((0, 0, 1, 3)))}
        if kind == "record":
            return {field["name"]: self.default(field["type"], depth + 1) for field in node["fields"]}
        if kind == "union":
            if not node["members"]:
                raise Impossible()
            return self.default(node["members"][0], depth + 1)
        return random.choice(TEXTS)


def distinct(members):
    """The members of a union, without those that a union may not have."""
    kept, seen = [], set()
    for member in members:
        key = id(member) if member["kind"] in NAMED else member["kind"]
        if key not in seen and member["kind"] != "union":
            seen.add(key)
            kept.append(member)
    return kept


def slots(holder):
    """Every place of a type below a holder: a container and a key."""
    found, seen = [(holder, "type")], set()
    for container, key in found:
        node = container[key]
        if id(node) in seen:
            continue
        seen.add(id(node))
        if node["kind"] == "record":
            found += [(field, "type") for field in node["fields"]]
        elif node["kind"] == "union":
            found += [(node["members"], index) for index in range(len(node["members"]))]
        elif "items" in node:
            found.append((node, "items"))
    return found


def nodes(holder):
    kept = {}
    for container, key in slots(holder):
        kept[id(container[key])] = container[key]
    return list(kept.values())


def holds_itself(holder):
    """Whether some record lies in itself with nothing but records between."""
    def reaches(node, goal, seen):
        for field in node.get("fields", []):
            below = field["type"]
            if below is goal or below["kind"] == "record" and id(below) not in seen and reaches(below, goal, seen | {id(below)}):
                return True
        return False
    return any(reaches(node, node, set()) for node in nodes(holder) if node["kind"] == "record")
