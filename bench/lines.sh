#!/usr/bin/env bash
# Measures `avrogate transcode` on payload lines, in one go: to a reader that is flat (the fields as they were, int to
# long), and to one that is evolved (a field dropped, one added by default, two reordered, int to long). For each
#   the time on 100,000 and on 1,000,000 lines, the least of some turns, and their ratio, which should be near 10 (11 at most),
#   the peak memory on 1,000,000 lines as a multiple of input and output together (4 at most),
#   and lines per second beside Apache Avro for Python (Debian's package python3-avro) on the same 100,000 lines;
# and how much longer the evolved reader takes than the flat one.
# Usage: bench/lines.sh PROGRAM   (PROGRAM is the built avrogate: crates/avrogate/out/avrogate after `rt run`)
set -euo pipefail
export PYTHONDONTWRITEBYTECODE=1 PYTHONPATH=$(dirname "$(realpath "$0")")
program=$(realpath "$1")
folder=$(mktemp -d)
trap 'rm -rf "$folder"' EXIT
export program folder
exec /usr/bin/python3 - <<'PYTHON'
import io, os, random, resource, subprocess, sys, time
from avro_encoding import number, text

try:
    import avro.io, avro.schema
except ImportError:
    sys.exit("bench/lines.sh needs Debian's package python3-avro")

program, folder = os.environ["program"], os.environ["folder"]


def record(*fields):
    return '{"type":"record","name":"Order","fields":[%s]}' % ",".join(fields)


def field(name, kind, more=""):
    return '{"name":"%s","type":"%s"%s}' % (name, kind, more)


ID, ITEM, NOTE = field("id", "long"), field("item", "string"), field("note", "string")
writer = record(ID, field("count", "int"), ITEM, NOTE)
readers = {
    "flat": record(ID, field("count", "long"), ITEM, NOTE),
    "evolved": record(field("count", "long"), ID, ITEM, field("currency", "string", ',"default":"EUR"')),
}


def payload(rng):
    note = rng.choice(["", "gift", "left at the door", "größer als gedacht"])
    return number(rng.randrange(-2**40, 2**40)) + number(rng.randrange(0, 1000)) + text("item-%d" % rng.randrange(10**6)) + text(note)


def lines_file(name, count):
    rng = random.Random(count)
    path = os.path.join(folder, "%s-%d.in" % (name, count))
    with open(path, "w") as out:
        out.write(writer + "\n" + readers[name] + "\n")
        for _ in range(count):
            out.write(payload(rng).hex() + "\n")
    return path


def run(path):
    with open(path, "rb") as given, open(path + ".out", "wb") as taken:
        start = time.perf_counter()
        child = subprocess.Popen([program, "transcode"], stdin=given, stdout=taken)
        _, status, usage = os.wait4(child.pid, 0)
        took = time.perf_counter() - start
    assert status == 0, status
    size = os.path.getsize(path) + os.path.getsize(path + ".out")
    return took, usage.ru_maxrss * 1024 / size


def python_avro(path, reader):
    w, r = avro.schema.parse(writer), avro.schema.parse(reader)
    read, write = avro.io.DatumReader(w, r), avro.io.DatumWriter(r)
    with open(path) as given:
        given.readline(), given.readline()
        start = time.perf_counter()
        answers = []
        for line in given:
            datum = read.read(avro.io.BinaryDecoder(io.BytesIO(bytes.fromhex(line.strip()))))
            out = io.BytesIO()
            write.write(datum, avro.io.BinaryEncoder(out))
            answers.append("done " + out.getvalue().hex())
        took = time.perf_counter() - start
    with open(path + ".out") as ours:
        assert ours.read().split("\n")[:-1] == answers, "the answers differ"
    return took


def tell(name, short, long, memory, peer):
    print("%s: 100,000 lines %.3f s, 1,000,000 lines %.3f s, ratio %.2f (11 at most)" % (name, short, long, long / short))
    print("%s: peak memory %.2f times input and output (4 at most)" % (name, memory))
    print("%s: %.1f times as many lines per second as python3-avro" % (name, peer / short))
    return long / short <= 11 and memory <= 4


# in turn, so that what else the machine does falls on all alike
small = {name: lines_file(name, 100_000) for name in readers}
large = {name: lines_file(name, 1_000_000) for name in readers}
short = {name: [] for name in readers}
long = {name: [] for name in readers}
peer = {name: [] for name in readers}
for _ in range(10):
    for name in readers:
        long[name].append(run(large[name]))
        short[name].append(run(small[name]))
        peer[name].append(python_avro(small[name], readers[name]))
least = {name: min(took for took, _ in long[name]) for name in readers}
holds = [tell(name, min(took for took, _ in short[name]), least[name], max(peak for _, peak in long[name]), min(peer[name])) for name in readers]
print("evolved takes %.2f times as long as flat" % (least["evolved"] / least["flat"]))
sys.exit(0 if all(holds) else 1)
PYTHON
