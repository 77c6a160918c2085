#!/usr/bin/env bash
# How long a thread takes to find the schema that an id of an upstream registry names, whose text has 100, 1,000 and 10,000
# bytes. A message has two such finds. The program runs some times, and of each figure the least is printed. It builds
# nothing. Not part of the gate.
# Usage: bench/lookup.sh LOOKUP_BENCH [RUNS [FINDS]]   (crates/lookup_bench/out/lookup_bench after `rt run`; 5 and 10000000)
set -euo pipefail
exec python3 - "$(realpath "$1")" "${2:-5}" "${3:-10000000}" <<'PYTHON'
import re, subprocess, sys

program, runs, finds = sys.argv[1], int(sys.argv[2]), sys.argv[3]
least = {}
for _ in range(runs):
    done = subprocess.run([program, finds], stderr=subprocess.PIPE, text=True)
    assert done.returncode == 0, done.stderr
    for kind, nanoseconds in re.findall(r"^(.*): (\d+\.\d) nanoseconds a find$", done.stderr, re.M):
        least[kind] = min(float(nanoseconds), least.get(kind, float("inf")))
for kind, nanoseconds in least.items():
    print("%s: %.1f nanoseconds a find" % (kind, nanoseconds))
PYTHON
