#!/usr/bin/env bash
# `avrogate serve --http11`: curl with contents of 2 MB, in chunks and with `Expect`; the clients of Go, Python, Java and
# Node with what they do of themselves; nginx with a pool of connections in front, and wrk by way of it beside clients that
# cut, stall, send a byte at a time and send 1,000 requests without waiting; texts that are read as other requests by a
# careless server; limits of size, number, time and memory; the log. Each request carries its own number, so that an answer
# that is lost or swapped shows. A line for each check. It takes about two minutes; with SHORT=1 in the environment wrk runs
# 10 seconds and not 60. The gate runs it.
# Usage: tests/http11.sh [PROGRAM]   (crates/avrogate/out/avrogate if it is left out)
set -euo pipefail
here=$(dirname "$(realpath "$0")")
program=$(realpath "${1:-$here/../crates/avrogate/out/avrogate}")
. "$here/packages.sh"
command_of python3 python3
command_of curl curl
command_of nginx nginx-light
command_of wrk wrk
command_of go golang-go
command_of node nodejs
command_of java openjdk-17-jdk-headless
packages python3-requests
lines=$(mktemp)
trap 'rm -f "$lines"' EXIT
PYTHONDONTWRITEBYTECODE=1 timeout 3600 /usr/bin/python3 "$here/http11/http11.py" "$program" | tee "$lines" || true
grep -qx 'all were tried' "$lines" || echo 'FAILED the checks: they did not come to their end' | tee -a "$lines"
failed=$(grep -c '^FAILED ' "$lines" || true)
echo "$(grep -c '^ok ' "$lines" || true) passed, $failed failed"
[ "$failed" = 0 ]
