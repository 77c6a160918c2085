"""A fault of Java's library: where a record holds another one directly and also itself, and the other one holds the first, its table for reading
is copied before it is complete, and reading comes upon nothing."""


def parts_of(node):
    return [field.node for field in node.fields] + node.members + ([node.items] if node.items else [])


def holds(start, goal, without=None):
    """Whether a node has another one among its parts, or their parts, and so on."""
    found = [part for part in parts_of(start) if part is not without]
    for node in found:
        found += [part for part in parts_of(node) if part is not without and not any(part is other for other in found)]
    return any(node is goal for node in found)


def held_directly(record):
    """The records that a record has as fields, and that those have, and so on."""
    found = [field.node for field in record.fields if field.node.kind == "record"]
    for node in found:
        found += [field.node for field in node.fields if field.node.kind == "record" and field.node not in found]
    return found


def may_be(nodes):
    records = [node for node in nodes if node.kind == "record"]
    return any(inner is not outer and holds(inner, outer) and holds(outer, outer, inner) for outer in records for inner in held_directly(outer))


def is_one(line):
    """Whether an answer of Java's library is of this fault."""
    return line.startswith("refused: java.lang.NullPointerException")
