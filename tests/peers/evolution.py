"""Evolved copies of schemas: the graphs of random_schemas.py."""
import copy
from random_schemas import FIELDS, NAMED, NAMES, SPACES, SYMBOLS, Maker, distinct, holds_itself, nodes, slots


class Evolution:
    """Changes a copy of a schema in a few places."""

    def __init__(self, random, holder):
        self.random = random
        self.maker = Maker(random)
        self.holder = copy.deepcopy(holder)

    def evolved(self):
        changes = [self.change_fields] * 4 + [self.rename, self.promote, self.promote, self.wrap, self.wrap, self.unwrap, self.change_union]
        changes += [self.change_union, self.change_symbols, self.change_symbols, self.replace, self.resize, self.move]
        for _ in range(self.random.choice((0, 1, 1, 2, 2, 3, 5))):
            before = copy.deepcopy(self.holder)
            self.maker.types = [node for node in nodes(self.holder) if node["kind"] in NAMED]
            self.maker.open = [node for node in self.maker.types if node["kind"] == "record"]
            self.random.choice(changes)()
            self.flatten()
            if holds_itself(self.holder) and self.random.random() < 0.9:
                self.holder = before
        if self.random.random() < 0.9:
            self.give_aliases()
        for node in nodes(self.holder):
            for field in node.get("fields", []):
                if "default" in field:
                    self.maker.give_default(field)
        return self.holder

    def some(self, *kinds):
        found = [node for node in nodes(self.holder) if node["kind"] in kinds]
        return self.random.choice(found) if found else None

    def slot(self, *kinds):
        found = [(container, key) for container, key in slots(self.holder) if not kinds or container[key]["kind"] in kinds]
        return self.random.choice(found) if found else ({"type": {"kind": "null"}}, "type")

    def flatten(self):
        for node in nodes(self.holder):
            if node["kind"] == "union":
                members = []
                for member in node["members"]:
                    members += member["members"] if member["kind"] == "union" else [member]
                node["members"] = distinct(members)

    def change_fields(self):
        record = self.some("record")
        if record is None:
            return
        fields, names = record["fields"], [field["name"] for field in record["fields"]]
        what = self.random.choice(("drop", "drop", "add", "add", "shuffle", "rename"))
        if what == "drop" and fields:
            at = self.random.randrange(len(fields))
            del fields[at:at + self.random.choice((1, 1, 3))]
        elif what == "shuffle":
            self.random.shuffle(fields)
        elif what == "rename" and fields:
            field = self.random.choice(fields)
            if self.random.random() < 0.4:
                field["aliases"] = [field["name"]]
            field["name"] = next(name for name in FIELDS + ["renamed", "named"] if name not in names)
        else:
            name = self.random.choice([name for name in FIELDS if name not in names] + ["extra%d" % len(names)])
            field = self.maker.field(name, 1)
            if self.random.random() < 0.7:
                self.maker.give_default(field)
            fields.insert(self.random.randrange(len(fields) + 1), field)

    def give_aliases(self):
        """Aliases that may be names of the writer's, of whatever type or field."""
        for node in nodes(self.holder):
            if node["kind"] in NAMED and self.random.random() < 0.5:
                node["aliases"] = [self.type_alias() for _ in range(self.random.choice((1, 1, 2)))]
            for field in node.get("fields", []):
                if self.random.random() < 0.4:
                    field["aliases"] = [self.random.choice(FIELDS) for _ in range(self.random.choice((1, 1, 2)))]

    def type_alias(self):
        space, name = self.random.choice(SPACES + [""]), self.random.choice(NAMES)
        return space + "." + name if space and self.random.random() < 0.7 else name

    def rename(self):
        node = self.some(*NAMED)
        taken = [(other["space"], other["name"]) for other in nodes(self.holder) if other["kind"] in NAMED]
        space, name = self.random.choice(SPACES + [""]), self.random.choice(NAMES)
        if node is None:
            return
        new = (space, node["name"]) if self.random.random() < 0.6 else (node["space"], name)
        if new not in taken:
            if self.random.random() < 0.3:
                node["aliases"] = [node["space"] + "." + node["name"] if node["space"] else node["name"]]
            node["space"], node["name"] = new

    def promote(self):
        container, key = self.slot("int", "string", "bytes", "long")
        to = {"int": "long", "string": "bytes", "bytes": "string", "long": "int", "null": "null"}
        container[key] = {"kind": to[container[key]["kind"]]}

    def wrap(self):
        container, key = self.slot()
        more = [self.random.choice(({"kind": "null"}, {"kind": "long"}, {"kind": "bytes"}, self.maker.type(1)))
                for _ in range(self.random.choice((1, 1, 2, 3)))]
        members = more + [container[key]]
        self.random.shuffle(members)
        container[key] = {"kind": "union", "members": members}

    def unwrap(self):
        container, key = self.slot("union")
        if container[key].get("members"):
            container[key] = self.random.choice(container[key]["members"])

    def change_union(self):
        union = self.some("union")
        if union is None:
            return
        what = self.random.choice(("shuffle", "drop", "add"))
        if what == "shuffle":
            self.random.shuffle(union["members"])
        elif what == "drop" and union["members"]:
            union["members"].pop(self.random.randrange(len(union["members"])))
        else:
            union["members"].insert(self.random.randrange(len(union["members"]) + 1), self.maker.type(1))

    def change_symbols(self):
        enum = self.some("enum")
        if enum is None:
            return
        enum["symbols"] = self.random.sample(SYMBOLS, self.random.randrange(1, 7))
        enum.pop("default", None)
        if self.random.random() < 0.5:
            enum["default"] = self.random.choice(enum["symbols"])

    def replace(self):
        container, key = self.slot()
        container[key] = self.maker.type(1)

    def resize(self):
        node = self.some("fixed")
        if node is not None:
            node["size"] = self.random.choice((0, 1, 2, 3, 4, 16))

    def move(self):
        """A named type of the schema in another place."""
        container, key = self.slot()
        container[key] = self.some(*NAMED) or container[key]
