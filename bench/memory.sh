#!/usr/bin/env bash
# What a message may make the program hold: a reader's default of 200,000 letters, which a payload of a few bytes copies 335
# times (an answer just within its limit), 336, 2,000 and 524,288 times (as often as units allow), inside of 1, 20 and 60
# arrays, in one block each and in blocks with sizes, and where the default's slot is filled after another; and a text of 8
# MB inside of 1, 8 and 60 arrays in blocks with sizes, through `transcode`, `run` in pieces, and `serve`. At no
# moment is more than 3 times the limit of an answer held, besides the text that `transcode` and `run` write; each line is as
# it should be, and what passes the limit, and that text, is told within five seconds of processor time (0.3 where nothing else runs; the
# whole answer would take minutes). Takes about two minutes; with SHORT=1 in the environment 335, 336 and 524,288 times,
# inside of 1 and 60 arrays, are tried, and the text inside of 60.
# Usage: bench/memory.sh PROGRAM
set -euo pipefail
here=$(dirname "$(realpath "$0")")
. "$here/../tests/packages.sh"
command_of python3 python3
export PYTHONDONTWRITEBYTECODE=1 PYTHONPATH=$here
exec python3 - "$(realpath "$1")" <<'PYTHON'
import http.client, json, os, re, subprocess, sys, tempfile, time
from avro_encoding import number

PROGRAM = sys.argv[1]
LETTERS, LIMIT, MOST = 200_000, 67_108_864, 3
ITEMS, DEPTHS = ((335, 336), (1, 60)) if os.environ.get("SHORT") else ((335, 336, 2_000), (1, 20, 60))
UNITS, MOST_SECONDS, PATIENCE = 1_048_576, 5, 1800
INT = '{"name":"n","type":"int"}'
DEFAULT = '{"name":"s","type":"string","default":"%s"}' % ("a" * LETTERS)
LARGE = "output too large"
failed = []


def schema(depth, fields):
    return '{"type":"array","items":' * depth + '{"type":"record","name":"Q","fields":[%s]}' % fields + "}" * depth


def inside(depth, items, item):
    """An array of some items, inside of arrays of one item each."""
    return number(1) * (depth - 1) + number(items) + item * items + b"\0" * depth


def sized(depth, items, item):
    """The same in blocks with sizes, two where there are two items or more."""
    first, last = items // 2, items - items // 2
    data = b"".join(number(-some) + number(some * len(item)) + item * some for some in (first, last) if some) + b"\0"
    for _ in range(depth - 1):
        data = number(-1) + number(len(data)) + data + b"\0"
    return data


class Case:
    """A pair of schemas and a payload, and the answer: its bytes, or None where it is too large."""

    def __init__(self, depth, items, written="", item=b"", spelled=inside):
        self.name = "%d items in %d %s%s%s" % (items, depth, "array" if depth == 1 else "arrays", ", a field before" if written else "", ", sizes" if spelled is sized else "")
        self.writer, self.reader = schema(depth, written), schema(depth, ",".join(filter(None, [DEFAULT, written])))
        self.payload = spelled(depth, items, item)
        one = number(LETTERS) + b"a" * LETTERS + item
        self.answer = inside(depth, items, one) if items * len(one) < LIMIT else None

    def line(self):
        return LARGE if self.answer is None else "done " + self.answer.hex()

    def is_timed(self):
        return self.answer is None


class Text(Case):
    """A text of 8 MB inside of arrays in blocks with sizes, to itself."""

    def __init__(self, depth):
        self.name = "a text in %d arrays, sizes" % depth
        self.writer = self.reader = schema(depth, '{"name":"s","type":"string"}')
        item = number(8_000_000) + b"a" * 8_000_000
        self.payload, self.answer = sized(depth, 1, item), inside(depth, 1, item)

    def is_timed(self):
        return True


def told(what, case, held, seconds):
    print("%s: %s: %.2f times the limit of an answer, %.2f s" % (what, case.name, held / LIMIT, seconds), flush=True)
    if held > MOST * LIMIT:
        failed.append("%s: %s: memory" % (what, case.name))
    if case.is_timed() and seconds > MOST_SECONDS:
        failed.append("%s: %s: time" % (what, case.name))


# Starts the program from a process of its own: what this one holds would count as the program's peak.
STARTER = """import os, sys
child = os.fork()
if not child:
    os.execv(sys.argv[1], sys.argv[1:])
_, status, usage = os.wait4(child, 0)
print(os.waitstatus_to_exitcode(status), usage.ru_maxrss, usage.ru_utime + usage.ru_stime, file=sys.stderr)"""


def by_lines(what, words, text, case, line):
    """Runs the program on lines, and looks at the last line of what it writes."""
    with tempfile.TemporaryFile() as given, tempfile.TemporaryFile() as taken:
        given.write(text.encode())
        given.seek(0)
        ran = subprocess.run([sys.executable, "-c", STARTER, PROGRAM, *words], stdin=given, stdout=taken, stderr=subprocess.PIPE)
        status, held, seconds = ran.stderr.split()
        size = taken.seek(0, 2)
        taken.seek(0)
        last = taken.read().decode().split("\n")[-2]
    if status != b"0" or not last.startswith(line):
        failed.append("%s: %s: %s" % (what, case.name, last[:60]))
    told(what, case, int(held) * 1024 - size, float(seconds))


def transcode(case):
    by_lines("transcode", ["transcode"], "\n".join([case.writer, case.reader, case.payload.hex()]) + "\n", case, case.line())


def run(case):
    pair = (case.writer + "\n" + case.reader + "\n").encode()
    listing = subprocess.run([PROGRAM, "compile"], input=pair, capture_output=True, check=True).stdout.decode()
    cut = len(case.payload) // 2
    pieces = case.payload[:cut].hex() + "|" + case.payload[cut:].hex()
    by_lines("run", ["run", "--steps", "1000000000"], listing + "end\n" + pieces + "\n", case, case.line() + " count ")


def posted(port, path, body):
    connection = http.client.HTTPConnection("127.0.0.1", port, timeout=PATIENCE)
    connection.request("POST", path, body)
    answer = connection.getresponse()
    return answer.status, answer.read()


def of_process(pid):
    """The most memory that a process has held, in bytes, and its processor time in seconds."""
    with open("/proc/%d/status" % pid) as it:
        held = int(re.search(r"VmHWM:\s+(\d+)", it.read())[1]) * 1024
    with open("/proc/%d/stat" % pid) as it:
        parts = it.read().rpartition(")")[2].split()
    return held, (int(parts[11]) + int(parts[12])) / os.sysconf("SC_CLK_TCK")


def serve(case):
    server = subprocess.Popen([PROGRAM, "serve", "--port", "0", "--request-timeout", str(PATIENCE)], stdout=subprocess.PIPE)
    try:
        port = int(server.stdout.readline().split()[1])
        ids = []
        for subject, text in (("w", case.writer), ("r", case.reader)):
            status, body = posted(port, "/subjects/%s/versions" % subject, json.dumps({"schema": text}))
            assert status == 200
            ids.append(json.loads(body)["id"])
        writer, reader = (b"\0" + id.to_bytes(4, "big") for id in ids)
        _, before = of_process(server.pid)
        status, body = posted(port, "/transcode/%d" % ids[1], writer + case.payload)
        held, after = of_process(server.pid)
        wanted = (200, reader + case.answer) if case.answer is not None else (422, b'{"error_code":42252,"message":"output too large"}')
        if (status, body) != wanted:
            failed.append("serve: %s: %d %r" % (case.name, status, body[:60]))
        told("serve", case, held, after - before)
    finally:
        server.kill()
        server.wait()


# (an item that is a record is two units, and an array in an array one)
cases = [Case(depth, items) for depth in DEPTHS for items in (*ITEMS, (UNITS - depth + 1) // 2)]
cases += [Case(1, items, INT, b"\x0a") for items in ITEMS]
cases += [Case(depth, items, INT, b"\x0a", sized) for depth in DEPTHS for items in ITEMS[:2]]
cases += [Text(depth) for depth in ((60,) if os.environ.get("SHORT") else (1, 8, 60))]
for case in cases:
    for ask in (transcode, run, serve):
        ask(case)
for line in failed:
    print("FAILED " + line)
print("%d failed" % len(failed))
sys.exit(1 if failed else 0)
PYTHON
