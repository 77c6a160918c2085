#!/usr/bin/env bash
# Whether time is linear: `avrogate compile` on a writer's union of 100 and of 200 records and a reader's record of 100 fields with defaults, and
# reading listings and images of 50,000 and of 100,000 instructions; beside the start of `avrogate transcode`. Not part of the gate.
# Usage: bench/programs.sh AVROGATE BENCH   (crates/bench/out/bench after `rt run`)
set -euo pipefail
exec python3 - "$(realpath "$1")" "$(realpath "$2")" <<'PYTHON'
import subprocess, sys, time

avrogate, reader = sys.argv[1:]

def pair(records):
    writer = ",".join('{"type":"record","name":"n%d.R","fields":[]}' % i for i in range(records))
    fields = ",".join('{"name":"f%d","type":"int","default":0}' % i for i in range(100))
    return ('[%s]\n{"type":"record","name":"R","fields":[%s]}\n' % (writer, fields)).encode()

def listing(count):
    lines = ["avro program 1", "const 0 00"]
    lines += ["%d %s" % (i, "PUT 0" if i % 3 else "JUMP %d" % (i + 1)) for i in range(count - 1)]
    return ("\n".join(lines + ["%d HALT" % (count - 1)]) + "\n").encode()

def image(count):
    code = b"".join(b"\x10\0\0" if i % 3 else b"\x1e" + (i + 1).to_bytes(4, "big") for i in range(count - 1)) + b"\x1f"
    return b"AVRP\x02" + b"\0\0\0\1\0\0\0\1\0" + b"\0\0\0\0" * 3 + count.to_bytes(4, "big") + code

def seconds(words, data):
    begin = time.perf_counter()
    done = subprocess.run(words, input=data, capture_output=True)
    took = time.perf_counter() - begin
    assert done.returncode == 0, done.stdout[:200]
    return took

# the least of some turns, in which both sizes come, so that what else the machine does falls on both alike
holds = True
start = min(seconds([avrogate, "transcode"], b'"int"\n"int"\n') for _ in range(40))
print("start of transcode: %.1f ms" % (start * 1000))
for name, words, make, size in [("compile, records", [avrogate, "compile"], pair, 100), ("assemble, instructions", [reader, "assemble"], listing, 50_000),
                                ("load, instructions", [reader, "load"], image, 50_000)]:
    inputs = [make(size * k) for k in (1, 2)]
    once, twice = (min(took) - start for took in zip(*([seconds(words, data) for data in inputs] for _ in range(20))))
    holds = holds and twice / once <= 2.3
    print("%s: %d and %d: %.1f ms and %.1f ms, ratio %.2f (2.3 at most)" % (name, size, size * 2, once * 1000, twice * 1000, twice / once))
sys.exit(0 if holds else 1)
PYTHON
