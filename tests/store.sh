#!/usr/bin/env bash
# The file that keeps the registry of `avrogate serve --store FILE`: what was answered is found after a stop, after kill -9
# at random moments under four clients, and after a full disk; two processes; files that are refused; each byte of a small
# file changed; the syncs before the answer, as strace shows them; import and export; how long a start takes. A line for
# each check. It takes some minutes; with SHORT=1 in the environment there are 20 rounds of kill -9 and not 200. The gate
# runs it.
# Usage: tests/store.sh [PROGRAM]   (crates/avrogate/out/avrogate if it is left out)
set -euo pipefail
here=$(dirname "$(realpath "$0")")
program=$(realpath "${1:-$here/../crates/avrogate/out/avrogate}")
. "$here/packages.sh"
command_of python3 python3
command_of strace strace
lines=$(mktemp)
trap 'rm -f "$lines"' EXIT
PYTHONDONTWRITEBYTECODE=1 timeout 3600 python3 "$here/store/store.py" "$program" | tee "$lines" || true
grep -qx 'all were tried' "$lines" || echo 'FAILED the checks: they did not come to their end' | tee -a "$lines"
failed=$(grep -c '^FAILED ' "$lines" || true)
echo "$(grep -c '^ok ' "$lines" || true) passed, $failed failed"
[ "$failed" = 0 ]
