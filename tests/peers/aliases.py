"""Whose aliases count, and how. Ours add matches and replace no name; Java renames the writer's types and fields by the reader's aliases before the
two are resolved; Python ignores them."""
from schemas import Refused


def add_matches(writer_nodes, reader_nodes, take):
    """Whether aliases add matches. Else they are ignored, or the writer's types and fields have been renamed by them."""
    gathered = Gathered(reader_nodes[0])
    if not (gathered.names or gathered.fields):
        return True
    if take("aliases-ignored"):
        return False
    if not take("aliases-rename"):
        return True
    rename(writer_nodes, gathered.names, gathered.fields)
    return False


def rename(writer_nodes, names, fields):
    for node in writer_nodes:
        if node.full in names:
            node.full, node.short = names[node.full], names[node.full].rsplit(".", 1)[-1]
        renamed = fields.get(node.full, {})
        for field in node.fields if renamed else ():
            field.name = renamed.get(field.name, field.name)
    for node in writer_nodes:
        known = [field.name for field in node.fields] + [member.full or member.kind for member in node.members]
        if len(set(known)) < len(known):
            raise Refused("a name twice")


class Gathered:
    """Java's two tables of a schema's aliases, filled in its order: later entries replace earlier ones, and records whose aliases are names of others share tables."""

    def __init__(self, root):
        self.names, self.fields, self.seen = {}, {}, set()
        self.visit(root)

    def visit(self, node):
        self.names.update({alias: node.full for alias in node.aliases})
        if node.kind == "record" and node not in self.seen:
            self.seen.add(node)
            for field in node.fields:
                for alias in field.aliases:
                    self.fields.setdefault(node.full, {})[alias] = field.name
                self.visit(field.node)
            if node.full in self.fields:
                self.fields.update({alias: self.fields[node.full] for alias in node.aliases})
        for part in [node.items] if node.items else node.members:
            self.visit(part)
