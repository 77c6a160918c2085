#!/usr/bin/env bash
# Whether time is linear: the program on payloads of nested arrays of records, and on schemas of many symbols, of many
# long names that differ at their ends, of many defaults, members, aliases that are one or are met often, a record that
# is met often, and names in one long namespace, each of one size and of twice that size, in one run. And whether a datum
# costs the same with a schema of twice the size: records of many fields, unions of many members, enums of many symbols,
# long names, lists of many levels. And `explain` on as many fields and symbols as a schema may have, and fields of a large
# union, and on half of them. Not part of the gate.
# Usage: bench/doubling.sh PROGRAM [WORD [instructions]], which takes the rows alone whose names have that word, and
# counts instructions (by valgrind) in place of time.
set -euo pipefail
export PYTHONDONTWRITEBYTECODE=1 PYTHONPATH=$(dirname "$(realpath "$0")")
program=$(realpath "$1")
exec python3 - "$program" "${2:-}" "${3:-}" <<'PYTHON'
import random, re, subprocess, sys, time
from avro_encoding import number

program, word, mode = sys.argv[1:]
counting = mode == "instructions"


POINTS = ('{"type":"array","items":{"type":"array","items":{"type":"record","name":"Point","fields":'
          '[{"name":"x","type":"long"},{"name":"label","type":"string"}]}}}')

def points(size):
    row = number(100) + b"".join(number(i * 1000) + number(8) + b"point%03d" % i for i in range(100)) + b"\0"
    rows = size // len(row)
    return POINTS + "\n" + POINTS + "\n" + (number(rows) + row * rows + b"\0").hex() + "\n"

def enum(i):
    symbols = ",".join('"S%05d"' % (i * 40 + j) for j in range(40))
    return '{"name":"f%d","type":{"type":"enum","name":"E%d","symbols":[%s]}}' % (i, i, symbols)

def fixed(i):
    return '{"name":"%s%d","type":{"type":"fixed","name":"%s%d","size":1}}' % ("f" * 80, i, "F" * 80, i)

def record(field, size):
    fields, length = [], 0
    while length < size:
        fields.append(field(len(fields)))
        length += len(fields[-1]) + 1
    text = '{"type":"record","name":"R","fields":[%s]}' % ",".join(fields)
    return text + "\n" + text + "\n"

def enums(size):
    return record(enum, size)

def names(size):
    return record(fixed, size)

def whole(fields, more=""):
    text = '{"type":"record","name":"R"%s,"fields":[%s]}' % (more, ",".join(fields))
    return text + "\n" + text + "\n"

def small(i, pad=""):
    return '{"name":"f%d","type":{"type":"fixed","name":"%s%d","size":1}}' % (i, pad, i)

def defaults(size):
    symbols = ['"S%08d"' % i for i in range(size // 25)]
    enum = '{"name":"e","type":{"type":"enum","name":"E","symbols":[%s]}}' % ",".join(symbols)
    return whole([enum] + ['{"name":"f%04d","type":"E","default":%s}' % (i, symbols[-1]) for i in range(size // 100)])

def members(size):
    types = size // 200
    union = '{"name":"u","type":[%s]}' % ",".join('"%s%d"' % ("x" * 60, i) for i in range(types))
    return whole([small(i, "x" * 60) for i in range(types)] + [union])

def aliased_members(size):
    """A writer's union of records, each of which goes by its alias into a member of another name."""
    def union(first, aliases):
        member = '{"type":"record","name":"%s%%d"%s,"fields":[]}' % (first + "x" * 60, aliases)
        return "[%s]" % ",".join(member.replace("%d", str(i)) for i in range(size // 200))
    return "%s\n%s\n" % (union("w", ""), union("r", ',"aliases":["w%s%%d"]' % ("x" * 60)))

def namespace(size):
    return whole([small(i, "N") for i in range(size // 200)], ',"namespace":"%s"' % ("n" * (size * 2 // 3)))

def references(size):
    def referring(i):
        fields = ",".join('{"name":"f%d","type":"N0"}' % j for j in range(100))
        return '{"name":"r%d","type":{"type":"record","name":"R%d","fields":[%s]}}' % (i, i, fields)
    return whole([small(0, "N")] + [referring(i) for i in range(size // 5200)], ',"namespace":"%s"' % ("n" * (size // 2)))

def aliases(size):
    """A writer's fields, each the last alias of a reader's of another name, in a record that is an alias too, in one long namespace; and one record to resolve."""
    space, count, others = "n" * (size // 4), min(size // 250, 1000), ",".join('"o%05d"' % i for i in range(size // 25))
    written = ",".join('{"name":"w%04d","type":"int"}' % i for i in range(count))
    read = ",".join('{"name":"r%04d","type":"long","aliases":[%s,"w%04d"]}' % (i, ",".join('"n%04d%02d"' % (i, j) for j in range(8)), i) for i in range(count))
    writer = '{"type":"record","name":"W","namespace":"%s","fields":[%s]}' % (space, written)
    reader = '{"type":"record","name":"R","namespace":"%s","aliases":[%s,"W"],"fields":[%s]}' % (space, others, read)
    return writer + "\n" + reader + "\n" + "02" * count + "\n"

def aliases_met(size):
    """A fixed of many aliases, all of them the writer's last part in another long namespace, which is met in many fields."""
    space, many = "n" * (size // 4), size // 50
    fields = ",".join('{"name":"f%04d","type":"w"}' % i for i in range(1, many))
    def schema(last, name, more):
        return ('{"type":"record","name":"W","namespace":"%s.%s","fields":[{"name":"f","type":{"type":"fixed","name":"%s","size":1%s}},%s]}\n'
                % (space, last, name, more, fields.replace('"w"', '"%s"' % name)))
    return schema("a", "w", "") + schema("b", "R", ',"aliases":[%s]' % ",".join(['"w"'] * (size // 16)))

def met_often(size):
    """A record of many fields that is met in as many places."""
    many = size // 60
    first = '{"type":"record","name":"M","fields":[%s]}' % ",".join('{"name":"f%d","type":"int"}' % i for i in range(many))
    return whole(['{"name":"g%d","type":%s}' % (i, '"M"' if i else first) for i in range(many)])

def enum_fields(size):
    """Fields of one great enum to an enum that lacks a symbol, so that each field's line of the program names its misses."""
    symbols = ['"S%08d"' % i for i in range(size // 25)]
    return "\n".join(whole(['{"name":"e","type":{"type":"enum","name":"E","symbols":[%s]}}' % ",".join(some)]
                           + ['{"name":"f%04d","type":"E"}' % i for i in range(size // 100)]).split("\n")[0] for some in (symbols, symbols[1:])) + "\n"

def long_default(size):
    """Many records of one name to a record with a long text by default, which each of their routines puts."""
    writer = ",".join('{"type":"record","name":"n%d.R","fields":[]}' % i for i in range(size // 200))
    return '[%s]\n{"type":"record","name":"R","fields":[{"name":"s","type":"string","default":"%s"}]}\n' % (writer, "a" * size)

# A datum's cost: schemas of so many parts, one line of many data, and how many data those are.

def fields_row(many):
    """A record to the same fields the other way round."""
    fields = ['{"name":"f%d","type":"long"}' % i for i in range(many)]
    writer, reader = ('{"type":"array","items":{"type":"record","name":"R","fields":[%s]}}' % ",".join(each) for each in (fields, fields[::-1]))
    records = 400_000 // many
    return writer, reader, number(records) + number(20) * (many * records) + b"\0", records * many

def members_row(many):
    members = ['{"type":"fixed","name":"F%d","size":1}' % i for i in range(many)]
    union = '{"type":"array","items":[%s]}' % ",".join(members)
    rng, data = random.Random(many), 400_000
    return union, union, number(data) + b"".join(number(rng.randrange(64, many)) + b"x" for _ in range(data)) + b"\0", data

def symbols_row(many):
    symbols = ",".join('"S%d"' % i for i in range(many))
    enum = '{"type":"array","items":{"type":"enum","name":"E","symbols":[%s]}}' % symbols
    rng, data = random.Random(many), 400_000
    return enum, enum, number(data) + b"".join(number(rng.randrange(64, many)) for _ in range(data)) + b"\0", data

def unions_row(fields):
    """Fields of one union of 900 records, whose branches are looked for one by one."""
    first = ",".join('{"type":"record","name":"R%d","fields":[]}' % i for i in range(900))
    others = ",".join('"R%d"' % i for i in range(900))
    return whole(['{"name":"f%d","type":[%s]}' % (i, others if i else first) for i in range(fields)]).split("\n")

def name_row(letters):
    name = "n" * letters
    schema = '{"type":"array","items":{"type":"record","name":"%s","fields":[{"name":"%s","type":"long"}]}}' % (name, name)
    data = 400_000
    return schema, schema, number(data) + number(20) * data + b"\0", data

def levels_row(levels):
    """Lists of records in one another, of which each ends in a number that is spelled longer than it need be."""
    items = '{"type":"record","name":"List","fields":[{"name":"value","type":"long"},{"name":"next","type":["null","List"]}]}'
    schema = '{"type":"array","items":%s}' % items
    lists = 100_000 // levels
    return schema, schema, number(lists) + ((number(7) + number(1)) * (levels - 1) + b"\x80\0\0") * lists + b"\0", lists * levels

# milliseconds, or millions of instructions
def cost(data, verb="transcode"):
    counted = ["valgrind", "--tool=callgrind", "--callgrind-out-file=/dev/null"] if counting else []
    begin = time.perf_counter()
    done = subprocess.run([*counted, program, verb], input=data, capture_output=True)
    took = time.perf_counter() - begin
    assert done.returncode == 0, done.stdout[:200]
    return int(re.search(rb"Collected : (\d+)", done.stderr)[1]) / 1e6 if counting else took * 1e3

# the least of some turns, in which all of them come, so that what else the machine does falls on all alike
def least(turns, *inputs, verb="transcode"):
    return [min(costs) for costs in zip(*([cost(data, verb) for data in inputs] for _ in range(1 if counting else turns)))]

unit, each = ("million instructions", "instructions") if counting else ("ms", "ns")
holds = True
start = least(40, b'"int"\n"int"\n')[0]
for name, make, size, turns in [("payload", points, 1 << 21, 10), ("schema of enums", enums, 100_000, 30), ("schema of names", names, 100_000, 30),
                                ("schema of defaults of one enum", defaults, 50_000, 30), ("schema of fields of one enum", enum_fields, 50_000, 30),
                                ("schema of one long default", long_default, 100_000, 30), ("schema of one union", members, 100_000, 30),
                                ("schema of one union by aliases", aliased_members, 100_000, 30),
                                ("schema of one long namespace", namespace, 100_000, 30), ("schema of references in one long namespace", references, 100_000, 30),
                                ("schema of many aliases", aliases, 100_000, 30), ("schema of aliases that are met often", aliases_met, 25_000, 30),
                                ("schema of a record that is met often", met_often, 25_000, 30)]:
    if word not in name:
        continue
    once, twice = (took - start for took in least(turns, *(make(size * k).encode() for k in (1, 2))))
    holds = holds and twice / once <= 2.3
    print("%s of %d and %d bytes: %.1f and %.1f %s, ratio %.2f (2.3 at most)" % (name, size, size * 2, once, twice, unit, twice / once))

# a text in pieces of 1 KiB, to its own program
def pieces(size):
    text = (number(size) + b"a" * size).hex()
    listing = "avro program 1\n0 TEXT\n1 HALT\nend\n"
    return listing + "|".join(text[at:at + 2048] for at in range(0, len(text), 2048)) + "\n"

if word in "payload in pieces":
    size = (1 << 23) - 16
    once, twice = least(10, *(pieces(size * k).encode() for k in (1, 2)), verb="run")
    holds = holds and twice / once <= 2.3
    print("payload in pieces of %d and %d bytes: %.1f and %.1f %s, ratio %.2f (2.3 at most)" % (size, size * 2, once, twice, unit, twice / once))

for name, make, many in [("explained fields", fields_row, 500), ("explained symbols", symbols_row, 2000), ("explained unions", unions_row, 15)]:
    if word not in name:
        continue
    pairs = ["".join(line + "\n" for line in make(parts)[:2]).encode() for parts in (many, many * 2)]
    once, twice = (took - start for took in least(30, *pairs, verb="explain"))
    holds = holds and twice / once <= 2.3
    print("%s, %d and %d: %.1f and %.1f %s, ratio %.2f (2.3 at most)" % (name, many, many * 2, once, twice, unit, twice / once))

for name, make, many in [("data of a record by its fields", fields_row, 500), ("data of a union by its members", members_row, 500),
                         ("data of an enum by its symbols", symbols_row, 2000), ("data of a record by the letters of its name", name_row, 50_000),
                         ("data of a list by its levels", levels_row, 450)]:
    if word not in name:
        continue
    costs = []
    for parts in (many, many * 2):
        writer, reader, payload, data = make(parts)
        schemas = (writer + "\n" + reader + "\n").encode()
        alone, whole_line = least(10, schemas, schemas + payload.hex().encode() + b"\n")
        costs.append((whole_line - alone) / data)
    holds = holds and costs[1] / costs[0] <= 1.5
    print("%s, %d and %d: %.1f and %.1f %s a datum, ratio %.2f (1.5 at most)" % (name, many, many * 2, costs[0] * 1e6, costs[1] * 1e6, each, costs[1] / costs[0]))
sys.exit(0 if holds else 1)
PYTHON
