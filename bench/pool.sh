#!/usr/bin/env bash
# Sessions of one small message in a pool, beside one transcoder of the same message: microseconds a session and
# sessions a second, by the clock. The pool runs on one thread, which is client and worker, and by 1, 2 and 4 workers
# with as many clients, each in a thread of its own; a client opens a session, feeds it the message as one piece, ends
# it and asks for its result until it is there. Each answer is compared with what it has to be. The program runs some
# times, and of each figure the least counts; last comes what of a session on one thread is not the machine's: the
# least time by the pool on one thread less that of the transcoder. It builds nothing. Not part of the gate.
# Usage: bench/pool.sh POOL_BENCH [RUNS [SESSIONS]]   (crates/pool_bench/out/pool_bench after `rt run`; 5 and 200000)
set -euo pipefail
exec python3 - "$(realpath "$1")" "${2:-5}" "${3:-200000}" <<'PYTHON'
import re, subprocess, sys

program, runs, sessions = sys.argv[1], int(sys.argv[2]), sys.argv[3]
WAYS = ["transcoder", "pool, one thread", "pool, 1 worker", "pool, 2 workers", "pool, 4 workers"]

# the microseconds a session and the sessions a second of each way, of one run
def figures():
    done = subprocess.run([program, sessions], stderr=subprocess.PIPE, text=True)
    assert done.returncode == 0, done.stderr
    lines = re.findall(r"^(.*): (\d+\.\d\d) microseconds a session, (\d+) sessions a second$", done.stderr, re.M)
    assert [way for way, _, _ in lines] == WAYS, done.stderr
    return {way: (float(micros), int(rate)) for way, micros, rate in lines}

taken = [figures() for _ in range(runs)]
least = {way: min(run[way][0] for run in taken) for way in WAYS}
for way in WAYS:
    rate = max(run[way][1] for run in taken)
    print("%s: %.2f microseconds a session, %d sessions a second" % (way, least[way], rate))
print("beside the machine, one thread: %.2f microseconds a session" % (least["pool, one thread"] - least["transcoder"]))
PYTHON
