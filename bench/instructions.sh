#!/usr/bin/env bash
# Instructions that a message takes in process, by one transcoder: those of two passes less those of one, counted by
# valgrind's callgrind, which no other load of the machine changes. Not part of the gate.
# Usage: bench/instructions.sh BENCH   (crates/bench/out/bench after `rt run`)
set -euo pipefail
command -v valgrind >/dev/null || { echo "bench/instructions.sh needs valgrind" >&2; exit 1; }
export PYTHONDONTWRITEBYTECODE=1 PYTHONPATH=$(dirname "$(realpath "$0")")
exec python3 - "$(realpath "$1")" <<'PYTHON'
import json, random, re, struct, subprocess, sys, tempfile
from avro_encoding import number, text

program = sys.argv[1]
rng = random.Random(7)
sys.setrecursionlimit(20_000)


def record(name, *fields):
    return {"type": "record", "name": name, "fields": [dict(zip(("name", "type", "default"), field)) for field in fields]}


def word(least, most):
    return "".join(rng.choices("abcdefghijklmnopqrstuvwxyz", k=rng.randint(least, most)))


def optional(likely):
    return b"\2" + text(word(5, 30)) if rng.random() < likely else b"\0"


def items(parts):
    return number(len(parts)) + b"".join(parts) + b"\0" if parts else b"\0"


def flat_message():
    return number(rng.getrandbits(rng.choice((20, 34, 41, 55)))) + text(word(8, 24)) + number(rng.randint(-10**6, 10**6)) + bytes([rng.randrange(2)])


def longs_message():
    return items([number(rng.getrandbits(rng.randint(1, 62)) * rng.choice((1, 1, -1))) for _ in range(1000)])


def event_message():
    user = number(rng.getrandbits(40)) + text(word(8, 20)) + optional(0.7) + bytes([rng.randrange(2)]) + b"".join(text(word(5, 16)) for _ in range(4))
    goods = [text(word(8, 12)) + number(rng.randint(1, 9)) + number(rng.randint(100, 10**6)) + optional(0.3) for _ in range(rng.randint(1, 5))]
    tags = [text(word(3, 7)) + text(word(3, 12)) for _ in range(rng.randint(1, 5))]
    return (text(word(36, 36)) + number(17 * 10**14 + rng.getrandbits(44)) + number(rng.randint(0, 10**6)) + number(rng.randrange(4)) + user
            + optional(0.5) + rng.randbytes(4) + text("GET") + text("/" + word(10, 40)) + number(200) + b"".join(number(rng.getrandbits(20)) for _ in range(3))
            + bytes([rng.randrange(2)]) + optional(0.5) + items(tags) + items(goods) + number(16) + rng.randbytes(16) + number(rng.randrange(4)) + number(7))


def list_message():
    return b"".join(number(rng.randrange(10**6)) + b"\2" for _ in range(499)) + number(7) + b"\0"


def short_message():
    return number(rng.randrange(2**20, 2**27)) + bytes([rng.randrange(2)])


maybe, sources = ["null", "string"], ["WEB", "MOBILE", "SERVER", "BATCH"]
address = record("Address", *[(name, "string") for name in ("street", "city", "zip", "country")])
def tree_message(nodes=500):
    if not nodes:
        return b"\0"
    left = rng.randint(0, nodes - 1)
    return b"\2" + number(rng.randrange(10**6)) + tree_message(left) + tree_message(nodes - 1 - left)


def linked_message(links=500):
    parts = [number(rng.randrange(10**6)) + text(word(3, 9)) + bytes([rng.randrange(2)]) for _ in range(links)]
    return b"\2".join(parts) + b"\0"


def value_message(deep=4):
    if not deep:
        return rng.choice((b"\0", b"\2" + bytes([rng.randrange(2)]), b"\4" + number(rng.randrange(10**6)), b"\6" + text(word(4, 12))))
    values = [value_message(deep - 1) for _ in range(3)]
    if deep % 2:
        return b"\10" + items(values)
    return b"\12" + items([text(word(3, 9)) + value for value in values])


def row():
    return number(rng.randrange(10**6)) + text(word(3, 9))


def rows_message():
    return items([row() for _ in range(500)])


def blocks_message():
    blocks = [b"".join(row() for _ in range(100)) for _ in range(5)]
    return b"".join(number(-100) + number(len(block)) + block for block in blocks) + b"\0"


def nested_message():
    inner = lambda: number(rng.randrange(10**6)) + optional(0.5) + optional(0.5) + optional(0.5)
    return number(rng.randrange(10**6)) + inner() + inner()


flat = record("Flat", ("id", "long"), ("name", "string"), ("n", "int"), ("b", "boolean"))
evolved = record("Flat", ("n", "long"), ("name", "string"), ("region", "string", "eu-west"), ("id", "long"))
chain = record("LongList", ("value", "long"), ("next", ["null", "LongList"]))
longs = {"type": "array", "items": "long"}
short = record("Short", ("id", "long"), ("ok", "boolean"))
tail = lambda goods: [("tags", {"type": "map", "values": "string"}), ("items", {"type": "array", "items": goods})]
written = record("Event", ("id", "string"), ("ts", "long"), ("seq", "int"), ("source", {"type": "enum", "name": "Source", "symbols": sources}),
    ("user", record("User", ("id", "long"), ("name", "string"), ("email", maybe), ("verified", "boolean"), ("address", address))), ("session", maybe),
    ("ip", {"type": "fixed", "name": "IPv4", "size": 4}), ("method", "string"), ("path", "string"), ("status", "int"), ("took", "long"), ("came", "long"),
    ("went", "long"), ("cached", "boolean"), ("referrer", maybe), *tail(record("Item", ("sku", "string"), ("qty", "int"), ("price", "long"), ("note", maybe))),
    ("trace", "bytes"), ("retries", "int"), ("flags", "int"))
read = record("Event", ("ts", "long"), ("id", "string"), ("source", {"type": "enum", "name": "Source", "symbols": ["SERVER", "WEB", "BATCH", "EDGE", "MOBILE"]}),
    ("region", "string", "eu-west"), ("user", record("User", ("id", "long"), ("level", "int", 1), ("name", "string"), ("address", address), ("email", maybe))),
    ("session", maybe), ("ip", {"type": "fixed", "name": "IPv4", "size": 4}), ("method", maybe), ("path", "string"), ("status", "long"), ("took", "long"),
    ("went", "long"), ("came", "long"), ("cached", "boolean"),
    *tail(record("Item", ("sku", "string"), ("currency", "string", "EUR"), ("qty", "long"), ("price", "long"), ("note", maybe))), ("referrer", maybe),
    ("trace", "bytes"), ("retries", "long"))
node = record("Node", ("value", "long"), ("left", ["null", "Node"]), ("right", ["null", "Node"]))
with_tree = lambda event, tree: dict(event, fields=event["fields"] + [{"name": "tree", "type": ["null", tree]}])
linked = record("Linked", ("id", "long"), ("name", "string"), ("ok", "boolean"), ("next", ["null", "Linked"]))
turned = record("Linked", ("name", "string"), ("id", "long"), ("ok", "boolean"), ("next", ["null", "Linked"]))
value = record("Value", ("v", ["null", "boolean", "long", "string", {"type": "array", "items": "Value"}, {"type": "map", "values": "Value"}]))
rows = {"type": "array", "items": record("Row", ("id", "long"), ("name", "string"))}
symbols = {"type": "enum", "name": "Symbol", "symbols": ["S%d" % i for i in range(250)]}
turned_symbols = {**symbols, "symbols": symbols["symbols"][::-1]}
inner = record("Inner", ("id", "long"), ("a", maybe), ("b", maybe), ("c", maybe))
turned_inner = record("Inner", ("c", maybe), ("a", maybe), ("id", "long"), ("b", maybe))
nested = lambda part: record("Outer", ("id", "long"), ("first", part), ("second", part["name"]))
WORKLOADS = [
    ("flat record, to itself", flat, flat, flat_message, 10_000),
    ("flat record, evolved", flat, evolved, flat_message, 10_000),
    ("1,000 longs", longs, longs, longs_message, 300),
    ("event of 20 fields, evolved", written, read, event_message, 3_000),
    ("list of 500 records", chain, chain, list_message, 300),
    ("record of 5 bytes", short, short, short_message, 10_000),
    ("event of 20 fields, evolved, and a tree that is null", with_tree(written, node), with_tree(read, node), lambda: event_message() + b"\0", 3_000),
    ("tree of 500 records", node, node, lambda: tree_message()[1:], 300),
    ("list of 500 records of three fields", linked, linked, linked_message, 300),
    ("list of 500 records of three fields, two turned", linked, turned, lambda: linked_message(500), 300),
    ("value as of JSON", value, value, value_message, 300),
    ("500 records in one block", rows, rows, rows_message, 300),
    ("500 records in five blocks with sizes", rows, rows, blocks_message, 300),
    ("symbol at position 10", symbols, symbols, lambda: number(10), 10_000),
    ("symbol at position 200", symbols, symbols, lambda: number(200), 10_000),
    ("symbol that moves from position 10", symbols, turned_symbols, lambda: number(10), 10_000),
    ("symbol that moves from position 200", symbols, turned_symbols, lambda: number(200), 10_000),
    ("three unions in each of two records, turned", nested(inner), nested(turned_inner), nested_message, 3_000),
]


def instructions(data, passes):
    with tempfile.TemporaryFile() as file:
        file.write(data)
        file.seek(0)
        tool = ["valgrind", "--tool=callgrind", "--callgrind-out-file=/dev/null", program, "--passes", str(passes)]
        done = subprocess.run(tool, stdin=file, capture_output=True)
    assert done.returncode == 0, done.stderr[-300:]
    return int(re.search(rb"Collected : (\d+)", done.stderr)[1])


for name, writer, reader, make, count in WORKLOADS:
    messages = [make() for _ in range(count)]
    container = struct.pack("<%dI" % (count + 1), count, *map(len, messages)) + b"".join(messages)
    data = json.dumps(writer).encode() + b"\n" + json.dumps(reader).encode() + b"\n" + container
    print("%s: %d instructions a message" % (name, (instructions(data, 2) - instructions(data, 1)) // count), flush=True)
PYTHON
