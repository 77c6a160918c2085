#!/usr/bin/env bash
# All that this repository can try of itself: `rt ci`, which passes every proof, edit and test of the crates, and then, on
# the program and the tests that it has built, each script of tests/ and bench/memory.sh, in its short form where it has
# one. What a script needs of Debian's packages it installs, which needs root; one that cannot have them is left out, and
# so is one that would begin after MOST_MINUTES. A script that fails ends nothing. The last line is `N passed, M failed`,
# alone at the beginning of a line: what `rt ci` counted, and one for each script; the line before it says how many were
# left out. No script fails by a time that other load on the machine changes; one that fails is tried once more, which is
# told, and counts by its second try.
# Usage: tests/all.sh [PROGRAM]   With a PROGRAM, as `rt run` in crates/avrogate leaves it, `rt ci` is not run, and the
# scripts alone are tried and counted. RT_JOBS is how many checks `rt ci` runs side by side, one a processor if it is not
# set; with LONG=1 in the environment the scripts have their long forms; MOST_MINUTES is counted from the beginning, and
# without it there is no such limit.
set -uo pipefail
[ $# = 0 ] || program=$(realpath "$1")
cd "$(dirname "$0")/.."
passed=0 failed=0 left_out=0
log=$(mktemp)
trap 'rm -f "$log"' EXIT
[ -n "${LONG:-}" ] || export SHORT=1

without=
if [ -z "${program:-}" ]; then
  echo '== rt ci'
  RT_JOBS=${RT_JOBS:-$(nproc)} rt ci 2>&1 | tee "$log" | sed -u 's/^/  /'
  status=${PIPESTATUS[0]}
  counts=$(grep -E '^[0-9]+ passed, [0-9]+ failed$' "$log" | tail -1)
  read -r passed _ failed _ <<<"${counts:-0 passed, 1 failed}"
  [ "$status" = 0 ] || [ "$failed" != 0 ] || failed=1
  program=crates/avrogate/out/avrogate
  if [ "$failed" != 0 ]; then without='rt ci failed'; elif [ ! -x "$program" ]; then without="rt ci left no $program"; fi
fi

# try SCRIPT [WORD ..]: a script, which counts as one
try() {
  local begin=$SECONDS status=0
  echo "== $*"
  if [ -n "${MOST_MINUTES:-}" ] && [ $((SECONDS / 60)) -ge "$MOST_MINUTES" ]; then
    echo "left out $1: $MOST_MINUTES minutes have passed"
    left_out=$((left_out + 1))
    return
  fi
  "$@" 2>&1 </dev/null | sed -u 's/^/  /' || status=$?
  if [ $status != 0 ] && [ $status != 77 ]; then
    echo "$1 failed with status $status ($((SECONDS - begin)) s), and is tried once more"
    status=0
    "$@" 2>&1 </dev/null | sed -u 's/^/  /' || status=$?
  fi
  if [ $status = 0 ]; then
    echo "passed $1 ($((SECONDS - begin)) s)"
    passed=$((passed + 1))
  elif [ $status = 77 ]; then
    echo "left out $1: its packages cannot be had"
    left_out=$((left_out + 1))
  else
    echo "FAILED $1: status $status ($((SECONDS - begin)) s)"
    failed=$((failed + 1))
  fi
}
# try_built SCRIPT: one that needs the program
try_built() {
  if [ -z "$without" ]; then
    try "$1" "$program"
  else
    echo "FAILED $1: it needs the program, and $without"
    failed=$((failed + 1))
  fi
}
# try_library SCRIPT: one that needs the libraries, over which it compiles the one for C
try_library() {
  if [ "$without" != 'rt ci failed' ]; then
    try "$1"
  else
    echo "FAILED $1: it needs the crates' libraries, and $without"
    failed=$((failed + 1))
  fi
}
try tests/map.sh
try_built tests/program.sh
try_built tests/pages.sh
try_built tests/clients.sh
try_built tests/hostile.sh
try_built tests/registry_lock.sh
try_built tests/store.sh
try_built tests/upstream.sh
try_built tests/http11.sh
try_built tests/plans.sh
try_built tests/stack.sh
try_built tests/allocations.sh
try_built tests/peers/compare.sh
try_built tests/peers/checks.sh
try_library tests/embedding.sh
try_built bench/memory.sh
[ "$left_out" = 0 ] || echo "$left_out left out"
echo "$passed passed, $failed failed"
[ "$failed" = 0 ]
