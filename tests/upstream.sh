#!/usr/bin/env bash
# `avrogate serve --upstream URL`: beside our own `serve` as the upstream registry; beside a script that answers as
# Confluent's does, and as none should, with 8 clients at once; 100 requests that wait for silent ids, and a good one
# meanwhile; three gateways behind nginx, one of which is killed midway; an upstream with TLS behind nginx; the lines of
# the log; stores that are kept, refused and full, and a service that is killed while it keeps; and the consumer of
# docs/CLIENTS.md between two topics of a mock cluster. A line for each check. It takes about three minutes; with SHORT=1
# in the environment there are 2,000 messages behind nginx and not 10,000, and 5 kills and not 40. The gate runs it.
# Usage: tests/upstream.sh [PROGRAM]   (crates/avrogate/out/avrogate if it is left out)
set -euo pipefail
here=$(dirname "$(realpath "$0")")
program=$(realpath "${1:-$here/../crates/avrogate/out/avrogate}")
. "$here/packages.sh"
command_of python3 python3
command_of nginx nginx-light
command_of openssl openssl
packages python3-confluent-kafka
lines=$(mktemp)
trap 'rm -f "$lines"' EXIT
PYTHONDONTWRITEBYTECODE=1 timeout 3600 /usr/bin/python3 "$here/upstream/upstream.py" "$program" | tee "$lines" || true
grep -qx 'all were tried' "$lines" || echo 'FAILED the checks: they did not come to their end' | tee -a "$lines"
failed=$(grep -c '^FAILED ' "$lines" || true)
echo "$(grep -c '^ok ' "$lines" || true) passed, $failed failed"
[ "$failed" = 0 ]
