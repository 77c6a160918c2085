#!/usr/bin/env bash
# Compares `check` with python3-avro's checker on random pairs of schemas in which both rules are one, and what `explain`
# says becomes of random data with what `transcode` makes of them. What is missing of Debian's package python3-avro is
# installed with apt-get, which needs root. The gate runs it.
# Usage: tests/peers/checks.sh PROGRAM [PAIRS] [SEED]   (2,000 pairs, or 200 with SHORT=1 in the environment, and seed 1)
# Status: 0 all are one, 1 something differs, 2 the package cannot be had.
set -euo pipefail
if [ $# -lt 1 ]; then echo "usage: $0 PROGRAM [PAIRS] [SEED]" >&2; exit 2; fi
default=2000
[ -z "${SHORT:-}" ] || default=200
here=$(cd "$(dirname "$0")" && pwd)
. "$here/../packages.sh"
packages python3-avro
export PYTHONDONTWRITEBYTECODE=1
exec /usr/bin/python3 "$here/checks.py" "$(realpath "$1")" "${2:-$default}" "${3:-1}"
