#!/usr/bin/env bash
# Hostile use of `avrogate serve`, all at once: 64 clients, a third of which are slow, cut off or malformed, each of
# whose answers has to be, byte for byte, the one that was computed for its request, whatever was sent after that, and
# must not end with a reset; 1,000 silent connections, 200 that trickle and 50 that read nothing, beside which good
# requests are timed, and beside clients that send without end; a log that nobody reads; heads and bodies that do not
# come; fewer open files than connections; messages of a MiB from 16 clients; bytes behind each kind of request; what
# the service takes of memory, and of a processor while nobody asks. All of it once more with `--http11`. A line for each
# check. It takes about six minutes; with SHORT=1 in the environment there are fewer of each. The gate runs it.
# Usage: tests/hostile.sh [PROGRAM]   (crates/avrogate/out/avrogate if it is left out)
set -euo pipefail
here=$(dirname "$(realpath "$0")")
program=$(realpath "${1:-$here/../crates/avrogate/out/avrogate}")
. "$here/packages.sh"
command_of python3 python3
lines=$(mktemp)
trap 'rm -f "$lines"' EXIT
export PYTHONDONTWRITEBYTECODE=1
timeout 3600 python3 "$here/hostile/hostile.py" "$program" | tee "$lines" || true
HTTP11=1 timeout 3600 python3 "$here/hostile/hostile.py" "$program" | tee -a "$lines" || true
[ "$(grep -cx 'all were tried' "$lines")" = 2 ] || echo 'FAILED the checks: they did not come to their end' | tee -a "$lines"
failed=$(grep -c '^FAILED ' "$lines" || true)
echo "$(grep -c '^ok ' "$lines" || true) passed, $failed failed"
[ "$failed" = 0 ]
