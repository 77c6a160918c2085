#!/usr/bin/env bash
# How briefly `avrogate serve` holds the lock of its registry: while one registration is compared with 4,095 versions,
# which takes seconds, other requests are answered as if nothing were there: in a small part of the time that the
# registration takes beside them. A line for each check. It takes a minute or two; with SHORT=1 in the environment it is
# compared with 1,000 versions. The gate runs it.
# Usage: tests/registry_lock.sh [PROGRAM]   (crates/avrogate/out/avrogate if it is left out)
set -euo pipefail
here=$(dirname "$(realpath "$0")")
program=$(realpath "${1:-$here/../crates/avrogate/out/avrogate}")
. "$here/packages.sh"
command_of python3 python3
lines=$(mktemp)
trap 'rm -f "$lines"' EXIT
PYTHONDONTWRITEBYTECODE=1 timeout 3600 python3 "$here/registry_lock/registry_lock.py" "$program" | tee "$lines" || true
grep -qx 'all were tried' "$lines" || echo 'FAILED the checks: they did not come to their end' | tee -a "$lines"
failed=$(grep -c '^FAILED ' "$lines" || true)
echo "$(grep -c '^ok ' "$lines" || true) passed, $failed failed"
[ "$failed" = 0 ]
