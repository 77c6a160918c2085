"""What the libraries make of a default when they need it, whether it is a value of its type or not."""
from schemas import DEEP, BadSchema, Pairs, Refused, default_of


def default_datum(field, take):
    """The datum of a field's default, or the refusal."""
    if field.default is not None or field.node.kind == "null" and field.json is None:
        return field.default
    return bent(field, take, 0)


def bent(field, take, depth):
    """The datum of a default that is no value of its type."""
    if take("default-when-used"):
        return python_datum(field.node, field.json, take, depth)
    if take("default-when-resolved"):
        return java_datum(field.node, field.json, take, depth)
    try:
        return default_of(field.node, field.json, take)
    except BadSchema:
        raise Refused("default") from None


def python_datum(node, value, take, depth):
    kind = node.kind
    if depth > DEEP:
        raise Refused("a default without end")
    if kind == "boolean":
        return bool(value)
    if kind in ("int", "long") and isinstance(value, int) or kind == "null" and value is None:
        return value
    if kind == "string" and isinstance(value, str):
        return value.encode()
    if kind in ("bytes", "fixed") and isinstance(value, str):
        return value.encode() if take("default-in-utf8") else value.encode("latin-1", "replace")
    if kind == "enum" and isinstance(value, str):
        return node.symbols.index(value) if value in node.symbols else value
    if kind == "array" and isinstance(value, (str, list, dict)):
        return [python_datum(node.items, item, take, depth + 1) for item in value]
    if kind == "map" and isinstance(value, dict):
        return Pairs([(key.encode(), python_datum(node.items, item, take, depth + 1)) for key, item in value.items()], len(value))
    if kind == "union" and node.members:
        return (0, python_datum(node.members[0], value, take, depth + 1))
    if kind == "record" and isinstance(value, dict):
        return {index: python_field(field, value, take, depth + 1) for index, field in enumerate(node.fields)}
    raise Refused("default")


def python_field(field, value, take, depth):
    given = value.get(field.name)
    return python_datum(field.node, field.json if given is None else given, take, depth)


def java_datum(node, value, take, depth):
    kind = node.kind
    if depth > DEEP:
        raise Refused("a default without end")
    if kind == "null" and value is None or kind == "boolean" and isinstance(value, bool):
        return value
    if kind in ("int", "long") and isinstance(value, int) and not isinstance(value, bool):
        bits = 32 if kind == "int" else 64
        return (value + (1 << bits - 1)) % (1 << bits) - (1 << bits - 1)
    if kind == "string" and isinstance(value, str):
        return value.encode()
    if kind in ("bytes", "fixed") and isinstance(value, str):
        content = value.encode("latin-1", "replace")
        return content if kind == "bytes" else content[:node.size].ljust(node.size, b"\0")
    if kind == "enum" and value in node.symbols:
        return node.symbols.index(value)
    if kind == "array":
        items = list(value.values()) if isinstance(value, dict) else value if isinstance(value, list) else []
        return [java_datum(node.items, item, take, depth + 1) for item in items]
    if kind == "map" and (value == [] or not isinstance(value, list)):
        pairs = value if isinstance(value, dict) else {}
        return Pairs([(key.encode(), java_datum(node.items, item, take, depth + 1)) for key, item in pairs.items()], len(pairs))
    if kind == "union" and node.members:
        return (0, java_datum(node.members[0], value, take, depth + 1))
    if kind == "record":
        return {index: java_field(field, value, take, depth + 1) for index, field in enumerate(node.fields)}
    raise Refused("default")


def java_field(field, value, take, depth):
    if isinstance(value, dict) and field.name in value:
        return java_datum(field.node, value[field.name], take, depth)
    if not field.has_default:
        raise Refused("default")
    return java_datum(field.node, field.json, take, depth)
