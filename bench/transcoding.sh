#!/usr/bin/env bash
# Transcoding in process, by one transcoder after its start: processor time per message, beside Apache Avro for Python (Debian's
# package python3-avro), which reads and writes the first of the same messages; and whether time is linear in the passes. Its
# answers have to be the same. Not part of the gate.
# Usage: bench/transcoding.sh BENCH   (crates/bench/out/bench after `rt run`)
set -euo pipefail
export PYTHONDONTWRITEBYTECODE=1 PYTHONPATH=$(dirname "$(realpath "$0")")
exec /usr/bin/python3 - "$(realpath "$1")" <<'PYTHON'
import io, json, random, re, resource, struct, subprocess, sys, time
from avro_encoding import number, text

try:
    import avro.io, avro.schema
except ImportError:
    sys.exit("bench/transcoding.sh needs Debian's package python3-avro")

program = sys.argv[1]
rng = random.Random(7)
sys.setrecursionlimit(20_000)


def record(name, *fields):
    return {"type": "record", "name": name, "fields": [dict(zip(("name", "type", "default"), field)) for field in fields]}


def flat_message():
    return number(rng.randrange(-2**40, 2**40)) + text("item-%d" % rng.randrange(10**6)) + number(rng.randrange(1000)) + bytes([rng.randrange(2)])


def list_message():
    return b"".join(number(rng.randrange(10**6)) + b"\2" for _ in range(499)) + number(7) + b"\0"


def longs_message():
    return number(1000) + b"".join(number(rng.randrange(-2**40, 2**40)) for _ in range(1000)) + b"\0"


flat = record("Order", ("id", "long"), ("item", "string"), ("count", "int"), ("paid", "boolean"))
evolved = record("Order", ("count", "long"), ("item", "string"), ("currency", "string", "EUR"), ("id", "long"))
chain = record("LongList", ("value", "long"), ("next", ["null", "LongList"]))
longs = {"type": "array", "items": "long"}
WORKLOADS = [
    ("flat record, to itself", flat, flat, flat_message, 20_000),
    ("flat record, evolved", flat, evolved, flat_message, 20_000),
    ("list of 500 records", chain, chain, list_message, 200),
    ("1,000 longs", longs, longs, longs_message, 200),
    ("64 KiB of text", "string", "string", lambda: text("0123456789abcdef" * 4096), 50),
]


def run(data, *words):
    before = resource.getrusage(resource.RUSAGE_CHILDREN)
    done = subprocess.run([program, *words], input=data, capture_output=True)
    after = resource.getrusage(resource.RUSAGE_CHILDREN)
    assert done.returncode == 0, done.stderr[-200:]
    return after.ru_utime + after.ru_stime - before.ru_utime - before.ru_stime, done.stdout


def by_python(writer, reader, message):
    reading = avro.io.DatumReader(avro.schema.parse(json.dumps(writer)), avro.schema.parse(json.dumps(reader)))
    writing = avro.io.DatumWriter(avro.schema.parse(json.dumps(reader)))
    out = io.BytesIO()
    writing.write(reading.read(avro.io.BinaryDecoder(io.BytesIO(message))), avro.io.BinaryEncoder(out))
    return out.getvalue()


holds = True
for name, writer, reader, make, count in WORKLOADS:
    messages = [make() for _ in range(count)]
    container = struct.pack("<%dI" % (count + 1), count, *map(len, messages)) + b"".join(messages)
    data = json.dumps(writer).encode() + b"\n" + json.dumps(reader).encode() + b"\n" + container
    few = messages[: max(1, min(200, 40_000 // len(messages[0])))]
    begin = time.process_time()
    answers = [by_python(writer, reader, message) for message in few]
    python = (time.process_time() - begin) / len(few)
    dump = run(data, "--dump")[1]
    lengths = struct.unpack_from("<%dI" % count, dump, 4)
    begin = 4 + 4 * count
    for answer, length in zip(answers, lengths):
        assert dump[begin : begin + length] == answer, name
        begin += length
    passes = 1
    while run(data, "--passes", str(passes))[0] - run(data, "--passes", "0")[0] < 0.3:
        passes *= 2
    turns = [[run(data, "--passes", str(k * passes))[0] for k in (0, 1, 2)] for _ in range(5)]
    base, once, twice = (min(turn[k] for turn in turns) for k in (0, 1, 2))
    assert re.match(rb"answers %d bytes \d+\n$" % (count * passes), run(data, "--passes", str(passes))[1]), name
    each, ratio = (once - base) / (count * passes), (twice - base) / (once - base)
    holds = holds and ratio <= 2.3
    print("%s: %.0f ns a message, %.0f MB/s; python3-avro takes %.0f times as long; twice the passes %.2f times (2.3 at most)"
          % (name, each * 1e9, sum(map(len, messages)) / count / each / 1e6, python / each, ratio))
sys.exit(0 if holds else 1)
PYTHON
