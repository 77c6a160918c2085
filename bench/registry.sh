#!/usr/bin/env bash
# Whether a registry's time is linear: registering 2,048 and 4,096 schemas under one subject, registering them again,
# registering them under 16 other subjects in turn, and 10,000 times finding one of 2,048 and of 4,096 ids (by the
# clock). Not part of the gate.
# Usage: bench/registry.sh BENCH   (crates/bench/out/bench after `rt run`)
set -euo pipefail
exec python3 - "$(realpath "$1")" <<'PYTHON'
import subprocess, sys

program, size, finds = sys.argv[1], 2048, 10_000
parts = {"register": "register", "again": "register again", "others": "register under others", "find": "find"}

# the milliseconds that each part took
def milliseconds(count):
    done = subprocess.run([program, "registry", str(count), str(finds)], capture_output=True, text=True)
    came_to = "register %d\nagain %d\nothers %d\nfind %d\n" % (count, count, count, finds)
    assert done.returncode == 0 and done.stdout == came_to, done.stdout
    return {part: int(micros) / 1000 for part, micros in map(str.split, done.stderr.splitlines())}

# the least of some turns, in which both sizes come, so that what else the machine does falls on both alike
once, twice = zip(*([milliseconds(count) for count in (size, size * 2)] for _ in range(100)))
linear = True
for part, name in parts.items():
    one, two = (min(turn[part] for turn in turns) for turns in (once, twice))
    linear = linear and two / one <= 2.3
    print("%s: %d and %d: %.3f ms and %.3f ms, ratio %.2f (2.3 at most)" % (name, size, size * 2, one, two, two / one))
sys.exit(0 if linear else 1)
PYTHON
