"""Random pairs of schemas, of which `check` and `explain` say what others say too.

By python3-avro's checker: the verdict of `check` is the checker's, and where there is no union each place that the checker
names is the path of a bad pair, or lies below one. By `transcode`: a message that is made of a random datum is rewritten
into what the JSON of `explain` says that becomes of each of its parts, or mismatches where that says so. By `compile`: the
mismatches of the listing are lines of the explanation, and all of them where no field is lacking.
Usage: checks.py PROGRAM PAIRS SEED"""
import json
import random
import subprocess
import sys

from avro import schema as avro_schema
from avro.compatibility import ReaderWriterCompatibilityChecker, SchemaCompatibilityType

PROGRAM, PAIRS, SEED = sys.argv[1], int(sys.argv[2]), int(sys.argv[3])
PRIMITIVE = ["null", "boolean", "int", "long", "bytes", "string"]


class Maker:
    """Draws schemas in which both rules are one: no aliases, no name that is used twice, no namespace."""

    def __init__(self, rng):
        self.rng = rng
        self.names = 0

    def name(self):
        self.names += 1
        return "N%d" % self.names

    def schema(self, depth, unions):
        kinds = PRIMITIVE + (["record"] * 6 + ["array", "map", "enum", "fixed"] + ["union"] * 2 * unions if depth else [])
        kind = self.rng.choice(kinds)
        if kind in PRIMITIVE:
            return {"type": kind, "logicalType": "x"} if self.rng.random() < 0.1 else kind
        if kind == "array":
            return {"type": "array", "items": self.schema(depth - 1, unions)}
        if kind == "map":
            return {"type": "map", "values": self.schema(depth - 1, unions)}
        if kind == "union":
            members = [self.schema(depth - 1, False) for _ in range(self.rng.randint(1, 3))]
            kept = {}
            for member in members:
                word = kind_of(member)
                kept.setdefault(member["name"] if word in ("record", "enum", "fixed") else word, member)
            return list(kept.values())
        if kind == "enum":
            return {"type": "enum", "name": self.name(), "symbols": ["A", "B", "C"][: self.rng.randint(1, 3)]}
        if kind == "fixed":
            return {"type": "fixed", "name": self.name(), "size": self.rng.randint(1, 3)}
        fields = [{"name": "f%d" % at, "type": self.schema(depth - 1, unions)} for at in range(self.rng.randint(1, 4))]
        return {"type": "record", "name": self.name(), "fields": fields}

    def evolved(self, schema, share):
        """A copy of a schema of which each part has changed with this probability."""
        rng = self.rng
        if isinstance(schema, list):
            members = [self.evolved(member, share) for member in schema]
            if rng.random() < share and len(members) > 1:
                members.pop(rng.randrange(len(members)))
            return members
        if isinstance(schema, str) or schema["type"] in PRIMITIVE:
            return rng.choice(PRIMITIVE) if rng.random() < share else schema
        schema = dict(schema)
        if schema["type"] == "array":
            schema["items"] = self.evolved(schema["items"], share)
        elif schema["type"] == "map":
            schema["values"] = self.evolved(schema["values"], share)
        elif schema["type"] == "enum":
            if rng.random() < 2 * share:
                schema["symbols"] = rng.sample(["A", "B", "C"], rng.randint(1, 3))
        elif schema["type"] == "fixed":
            if rng.random() < share:
                schema["size"] = rng.randint(1, 3)
        else:
            fields = [dict(field, type=self.evolved(field["type"], share)) for field in schema["fields"]]
            if rng.random() < share and len(fields) > 1:
                fields.pop(rng.randrange(len(fields)))
            if rng.random() < share:
                fields.append({"name": "new", "type": "int"})
            if rng.random() < share:
                fields.append({"name": "other", "type": "int", "default": rng.randint(-5, 5)})
            rng.shuffle(fields)
            schema["fields"] = fields
        return schema


def kind_of(schema):
    if isinstance(schema, list):
        return "union"
    return schema if isinstance(schema, str) else schema["type"]


def has_union(schema):
    if isinstance(schema, list):
        return True
    if isinstance(schema, str):
        return False
    return any(has_union(schema[key]) for key in ("items", "values") if key in schema) or any(has_union(field["type"]) for field in schema.get("fields", []))


def call(*words, lines):
    text = "".join(line + "\n" for line in lines)
    return subprocess.run([PROGRAM, *words], input=text.encode(), stdout=subprocess.PIPE)


# ---- data

def datum(rng, schema):
    """A random datum: of a union its branch and the datum, of a map a list of pairs, of an enum its symbol."""
    kind = kind_of(schema)
    if kind == "union":
        at = rng.randrange(len(schema))
        return (at, datum(rng, schema[at]))
    if kind == "null":
        return None
    if kind == "boolean":
        return rng.random() < 0.5
    if kind in ("int", "long"):
        return rng.choice([0, -1, 1, 63, -65, 2**31 - 1, rng.randint(-1000, 1000)])
    if kind == "bytes":
        return rng.choice([b"", b"abc", b"\xff\x00", "é".encode()])
    if kind == "string":
        return rng.choice(["", "abc", "é"])
    if kind == "fixed":
        return bytes(rng.randrange(256) for _ in range(schema["size"]))
    if kind == "enum":
        return rng.choice(schema["symbols"])
    if kind == "array":
        return [datum(rng, schema["items"]) for _ in range(rng.randint(0, 2))]
    if kind == "map":
        return [("k%d" % at, datum(rng, schema["values"])) for at in range(rng.randint(0, 2))]
    return [datum(rng, field["type"]) for field in schema["fields"]]


def number(value):
    value = (value << 1) ^ (value >> 63)
    out = bytearray()
    while value > 127:
        out.append(value & 127 | 128)
        value >>= 7
    out.append(value)
    return bytes(out)


def block(items):
    return number(len(items)) + b"".join(items) + b"\x00" if items else b"\x00"


def encoded(schema, value):
    kind = kind_of(schema)
    if kind == "union":
        return number(value[0]) + encoded(schema[value[0]], value[1])
    if kind == "null":
        return b""
    if kind == "boolean":
        return bytes([value])
    if kind in ("int", "long"):
        return number(value)
    if kind in ("bytes", "string"):
        content = value.encode() if isinstance(value, str) else value
        return number(len(content)) + content
    if kind == "fixed":
        return value
    if kind == "enum":
        return number(schema["symbols"].index(value))
    if kind == "array":
        return block([encoded(schema["items"], item) for item in value])
    if kind == "map":
        return block([number(len(key)) + key.encode() + encoded(schema["values"], item) for key, item in value])
    return b"".join(encoded(field["type"], part) for field, part in zip(schema["fields"], value))


# ---- what an explanation makes of a datum

class Mismatch(Exception):
    pass


def tree_of(lines):
    """The lines of an explanation, each with its parts."""
    above = []
    for line in lines:
        line["parts"] = []
        del above[line["depth"]:]
        if above:
            above[-1]["parts"].append(line)
        above.append(line)
    return lines[0]


def becomes(line, value):
    """What a line says that becomes of a datum; Mismatch where it says so."""
    result = of_fate(line, value)
    return (line["branch"], result) if line["branch"] is not None and line["part"] != "symbol" else result


def of_fate(line, value):
    fate = line["fate"]
    if fate == "mismatch":
        raise Mismatch(line["kind"])
    if fate == "copied" or fate == "promoted" and isinstance(value, int):
        return value
    if fate == "promoted":
        return value.encode()
    if fate == "promoted if UTF-8":
        try:
            return value.decode()
        except UnicodeDecodeError:
            raise Mismatch("BytesNotText")
    parts, kind = line["parts"], line["writer"]["type"].split()[0]
    if kind == "union":
        return becomes(parts[value[0]], value[1])
    if kind == "array":
        return [becomes(parts[0], item) for item in value]
    if kind == "map":
        return [(key, becomes(parts[0], item)) for key, item in value]
    if kind == "enum":
        part = next(part for part in parts if part["name"] == value)
        if part["fate"] == "mismatch":
            raise Mismatch(part["kind"])
        return value if part["fate"] == "copied" else part["default"]
    return of_fields(line, value)


def of_fields(line, value):
    """The reader's fields of a record; the first mismatch is that of the writer's order, and a lacking field is before all."""
    fields = [part for part in line["parts"] if part["fate"] != "dropped"]
    for part in fields:
        if part["fate"] == "mismatch" and part["kind"] == "NoDefault":
            raise Mismatch("NoDefault")
    names = line["names"]
    made = {}
    for name in names:
        part = next((part for part in fields if (part["renamed_from"] or part["name"]) == name and part["writer"]), None)
        if part is not None:
            made[part["name"]] = becomes(part, value[names.index(name)])
    return [made[part["name"]] if part["name"] in made else part["default"] for part in fields]


def name_fields(line, schema):
    """Notes for each line of a record the names of the writer's fields, by the paths of their nodes."""
    for one in [line]:
        value = schema
        for step in one["writer"]["path"].split("/")[1:] if one["writer"] else []:
            value = value[int(step)] if isinstance(value, list) else value[step]
        if isinstance(value, dict):
            one["names"] = [field["name"] for field in value.get("fields", [])]
    for part in line["parts"]:
        name_fields(part, schema)


def mismatches_in(lines):
    """The kinds and nodes of the mismatches that an explanation has."""
    found = set()
    for line in lines:
        kind = line["kind"] or ("BytesNotText" if line["fate"] == "promoted if UTF-8" else None)
        if kind:
            found.add((kind, str(line["writer"]["node"]), str(line["reader"]["node"])))
    return found


# ---- the comparisons

def main():
    rng = random.Random(SEED)
    count = {"pairs": 0, "compatible": 0, "places": 0, "messages": 0, "mismatches": 0}
    wrong = []
    while count["pairs"] < PAIRS:
        maker = Maker(rng)
        writer = maker.schema(3, count["pairs"] % 2 == 1)
        if isinstance(writer, str):
            continue
        reader = maker.evolved(writer, rng.choice([0.02, 0.1, 0.2]))
        lines = [json.dumps(writer), json.dumps(reader)]
        done = call("check", lines=lines)
        if b"bad schema" in done.stdout:
            continue
        try:
            theirs = ReaderWriterCompatibilityChecker().get_compatibility(avro_schema.parse(lines[1]), avro_schema.parse(lines[0]))
        except avro_schema.AvroException:
            continue
        count["pairs"] += 1
        is_theirs = theirs.compatibility is SchemaCompatibilityType.compatible
        bad = [line.split(" ") for line in done.stdout.decode().splitlines()] if done.returncode else []
        count["compatible"] += not bad
        if is_theirs != (done.returncode == 0) or (done.stdout == b"compatible\n") != (done.returncode == 0):
            wrong.append(("verdict", lines, theirs.messages, done.stdout))
        elif bad and not has_union(writer) and not has_union(reader):
            paths = [line[4].rstrip("/") for line in bad]
            # the checker adds the root to each list, since its word for no place is the root's
            for place in theirs.locations - {"/"}:
                count["places"] += 1
                place = place.rstrip("/")
                if not any(place == path or place.startswith(path + "/") for path in paths):
                    wrong.append(("place", lines, place, paths))
        explained = json.loads(call("explain", "--json", lines=lines).stdout)
        said = mismatches_in(explained)
        listing = call("compile", lines=lines).stdout.decode().splitlines()
        listed = {tuple(line.split(" ")[2:]) for line in listing if line.startswith("miss ")}
        if not listed <= said or listed != said and not any(kind == "NoDefault" for kind, _, _ in said):
            wrong.append(("listing", lines, listed, said))
        tree = tree_of(explained)
        name_fields(tree, writer)
        data = [datum(rng, writer) for _ in range(4)]
        answers = call("transcode", lines=lines + [encoded(writer, value).hex() for value in data]).stdout.decode().splitlines()
        for value, answer in zip(data, answers):
            count["messages"] += 1
            try:
                want = "done " + (encoded(reader, becomes(tree, value)).hex() or "-")
            except Mismatch as mismatch:
                count["mismatches"] += 1
                want = "mismatch " + str(mismatch)
            if answer != want and not (want.startswith("mismatch") and answer.startswith(want + " ")):
                wrong.append(("message", lines, value, answer, want))
    for one in wrong[:10]:
        print("differs:", *one)
    print(", ".join("%d %s" % (number, name) for name, number in count.items()))
    print("%d failed" % len(wrong))
    sys.exit(1 if wrong else 0)


main()
