#!/usr/bin/env bash
# Whether the threads of `avrogate serve` have the stack that the worst within the limits needs of it: schemas, JSON and
# data that nest as deep, and are as wide, as they may (and one step more, which is refused by its name), and requests that
# end early. Each has to be answered as it should, and the server has to answer after each. A line for each check. It takes
# some minutes at most. A thread gets the stack that `ulimit -s` tells (8,192 KiB as a rule); with STACK=1024 in the
# environment it gets 1,024 KiB, which shows how much of it is needed. With SHORT=1 in the environment what is refused at
# each depth, and what is left idle at each place, is tried at some of them. The gate runs it.
# Usage: tests/stack.sh [PROGRAM [PART ..]]   (crates/avrogate/out/avrogate if it is left out; a PART of tests/stack/worst.py)
set -euo pipefail
here=$(dirname "$(realpath "$0")")
program=$(realpath "${1:-$here/../crates/avrogate/out/avrogate}")
. "$here/packages.sh"
command_of python3 python3
folder=$(mktemp -d)
server=
trap '[ -z "$server" ] || kill "$server" 2>/dev/null || true; rm -rf "$folder"' EXIT
: >"$folder/told"
(ulimit -s "${STACK:-$(ulimit -s)}"; exec "$program" serve --port 0 --clients 2 --request-timeout 10 >"$folder/told" 2>"$folder/err") & server=$!
port=
for _ in $(seq 600); do
  port=$(sed -n 's/^listening //p' "$folder/told")
  [ -z "$port" ] && kill -0 "$server" 2>/dev/null || break
  sleep 0.1
done
[ -n "$port" ] || { echo "the server did not say where it listens: $(cat "$folder/told" "$folder/err")"; exit 1; }
lines=$folder/lines
echo "a thread has a stack of ${STACK:-$(ulimit -s)} KiB"
PYTHONDONTWRITEBYTECODE=1 timeout 3600 python3 "$here/stack/worst.py" "$port" 10 "${@:2}" | tee "$lines" || true
grep -qx 'all were tried' "$lines" || echo 'FAILED the checks: they did not come to their end' | tee -a "$lines"
if kill -0 "$server" 2>/dev/null; then
  echo 'ok the server still runs' | tee -a "$lines"
else
  status=0
  wait "$server" || status=$?
  echo "FAILED the server ended with status $status: $(cat "$folder/err")" | tee -a "$lines"
fi
failed=$(grep -c '^FAILED ' "$lines" || true)
echo "$(grep -c '^ok ' "$lines" || true) passed, $failed failed"
[ "$failed" = 0 ]
