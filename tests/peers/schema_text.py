"""The texts of schemas: the graphs of random_schemas.py."""
import json
from random_schemas import NAMED, PRIMITIVES


class Text:
    """The JSON of a schema, which may say the same in several ways."""

    def __init__(self, random):
        self.random, self.defined = random, set()

    def chance(self, part):
        return self.random.random() < part

    def of(self, node, space=""):
        kind = node["kind"]
        if id(node) in self.defined:
            return self.reference(node, space)
        if kind in PRIMITIVES:
            return {"type": kind} if self.chance(0.05) else kind
        if kind == "union":
            return [self.of(member, space) for member in node["members"]]
        value = {"type": kind}
        if kind in NAMED:
            self.defined.add(id(node))
            self.name(value, node, space)
        if kind == "record":
            value["fields"] = [self.field(field, node["space"]) for field in node["fields"]]
        elif kind in ("array", "map"):
            value["items" if kind == "array" else "values"] = self.of(node["items"], space)
        else:
            value.update({key: node[key] for key in ("symbols", "size", "default") if key in node})
        if "aliases" in node:
            value["aliases"] = node["aliases"]
        if self.chance(0.03):
            value["doc"] = "a note"
        return value

    def name(self, value, node, space):
        value["name"] = node["name"]
        if node["space"] == "":
            if space != "" or self.chance(0.05):
                value["namespace"] = ""
        elif self.chance(0.3):
            value["name"] = node["space"] + "." + node["name"]
        elif node["space"] != space or self.chance(0.1):
            value["namespace"] = node["space"]

    def reference(self, node, space):
        if node["space"] == "" or node["space"] == space and not self.chance(0.2):
            return node["name"]
        return node["space"] + "." + node["name"]

    def field(self, field, space):
        value = {"name": field["name"], "type": self.of(field["type"], space)}
        value.update({key: field[key] for key in ("default", "aliases") if key in field})
        if self.chance(0.03):
            value["order"] = "ignore"
        return value


def text_of(random, holder):
    return json.dumps(Text(random).of(holder["type"]), ensure_ascii=random.random() < 0.5, separators=random.choice(((",", ":"), (", ", ": "))))
