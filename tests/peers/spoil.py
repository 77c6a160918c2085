"""Schemas that break a rule: the JSON of a schema with one thing changed."""
ODD_DEFAULTS = [None, True, 7, 1 << 31, "x", "\u0100", "RED", [], {}, {"id": 1}]
WORDS = ("record", "enum", "fixed")


def dicts(value):
    """All objects of a JSON value."""
    if isinstance(value, dict):
        yield value
    for part in value.values() if isinstance(value, dict) else value if isinstance(value, list) else ():
        yield from dicts(part)


def lists(value):
    """All unions of a JSON schema, roughly: its arrays but for fields and symbols."""
    if isinstance(value, list):
        yield value
    for key, part in value.items() if isinstance(value, dict) else enumerate(value) if isinstance(value, list) else ():
        if key in ("fields",):
            for field in part:
                yield from lists(field.get("type"))
        elif key not in ("symbols", "default", "aliases"):
            yield from lists(part)


class Spoiler:
    def __init__(self, random, value):
        self.random, self.value = random, value
        self.objects = list(dicts(value))
        self.fields = [field for record in self.objects for field in record.get("fields", []) if record.get("type") == "record"]
        self.named = [each for each in self.objects if each.get("type") in WORDS]

    def spoiled(self):
        ways = [self.odd_default, self.odd_default, self.short_default, self.primitive_name, self.odd_space, self.odd_letters, self.odd_field]
        ways += [self.twice, self.bad_symbol, self.nested_union, self.unknown, self.redefined, self.fraction, self.odd_enum_default]
        ways += [self.in_object, self.in_object, self.without]
        for _ in range(20):
            if self.random.choice(ways)():
                break
        return self.value

    def pick(self, some):
        return self.random.choice(some) if some else None

    def odd_default(self):
        field = self.pick(self.fields)
        if field:
            field["default"] = self.random.choice(ODD_DEFAULTS)
        return field

    def short_default(self):
        field = self.pick([field for field in self.fields if isinstance(field.get("default"), dict) and field["default"]])
        if field:
            field["default"].pop(self.random.choice(list(field["default"])))
        return field

    def primitive_name(self):
        node = self.pick(self.named)
        if node:
            node["name"] = self.random.choice(("n.double", "double", "n.a.float", "a.int"))
        return node

    def odd_space(self):
        node = self.pick([node for node in self.named if "." not in node["name"]])
        if node:
            node["namespace"] = self.random.choice(("a-b", "9", "a..b", "n"))
        return node

    def odd_letters(self):
        what = self.pick(self.named + self.fields)
        if what:
            what["name"] = self.random.choice(("Größe", "é"))
        return what

    def odd_field(self):
        field = self.pick(self.fields)
        if field:
            field["name"] = self.random.choice(("a-b", "a.b", "1st", ""))
        return field

    def twice(self):
        """A union with a member again."""
        union = self.pick([each for each in lists(self.value) if each])
        if union is None:
            return False
        member = self.random.choice(union)
        if isinstance(member, dict) and member.get("type") in WORDS:
            space = member.get("namespace", "")
            member = member["name"] if "." in member["name"] or not space else space + "." + member["name"]
        union.append(member)
        return True

    def bad_symbol(self):
        enum = self.pick([node for node in self.named if node["type"] == "enum"])
        if enum:
            enum["symbols"] = enum["symbols"] + [self.random.choice(("a-b", "", "1", enum["symbols"][0], "Ä"))]
        return enum

    def nested_union(self):
        union = self.pick([each for each in lists(self.value)])
        if union is None:
            return False
        union.append(["null", "int"])
        return True

    def unknown(self):
        field = self.pick(self.fields)
        if field:
            field["type"] = self.random.choice(("Nowhere", "n.Nowhere", "", ".A", 7, None))
        return field

    def redefined(self):
        field = self.pick(self.fields)
        node = self.pick(self.named)
        if field and node:
            field["type"] = {"type": "fixed", "name": node["name"], "size": 1}
            if "namespace" in node:
                field["type"]["namespace"] = node["namespace"]
        return field and node

    def fraction(self):
        node = self.pick(self.fields + self.named)
        if node is not None:
            node["weight"] = self.random.choice((0.5, 1e3, 1 << 64))
        return node

    def odd_enum_default(self):
        enum = self.pick([node for node in self.named if node["type"] == "enum"])
        if enum:
            enum["default"] = "NONE"
        return enum

    def in_object(self):
        """An object that stands for a schema."""
        field = self.pick(self.fields)
        if field:
            field["type"] = {"type": field["type"]}
        return field

    def without(self):
        node = self.pick(self.objects)
        if node:
            node.pop(self.random.choice(list(node)))
        return node
