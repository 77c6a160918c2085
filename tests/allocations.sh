#!/usr/bin/env bash
# Refuses each allocation in turn, which no proof can see; with SHORT=1 in the environment some 40 of each run, the first
# ones and then at distances that grow. It needs a C compiler, which is installed with apt-get where there is none. The
# gate runs it.
# The program, on inputs to each of its words but `replay`: status 4 and nothing written, or the whole answer where a
# buffer could stay as it was, or, of `debug`, an answer that tells want of memory. `serve` does not begin, or answers
# each request, asked once more where it told want of memory: with a store, beside a registry, and over connections that
# stay too. The tests that ask again for what was refused: they pass, or end because what they build themselves was
# refused (an output that is a vector refuses a write then), or because a call that they compare tells want of memory; an
# answer that changed fails its assertion.
# Usage, after `rt ci`, or `rt run` in crates/avrogate and `rt test` in each crate of tests: tests/allocations.sh [PROGRAM]
# (crates/avrogate/out/avrogate if it is left out)
set -uo pipefail
[ $# = 0 ] || program=$(realpath "$1")
cd "$(dirname "$0")/.."
. tests/packages.sh
command_of cc gcc libc6-dev
command_of python3 python3
folder=$(mktemp -d)
trap 'rm -rf "$folder"' EXIT
cat >"$folder/refuse.c" <<'C'
#define _GNU_SOURCE
#include <dlfcn.h>
#include <errno.h>
#include <fcntl.h>
#include <stdlib.h>
#include <unistd.h>
static long calls;
static int refused(void) {
    const char *at = getenv("REFUSE");
    if (!at || ++calls != atol(at)) return 0;
    close(creat(getenv("REFUSED"), 0600));
    return 1;
}
void *malloc(size_t size) {
    static void *(*real)(size_t);
    if (!real) real = dlsym(RTLD_NEXT, "malloc");
    if (refused()) { errno = ENOMEM; return NULL; }
    return real(size);
}
void *realloc(void *old, size_t size) {
    static void *(*real)(void *, size_t);
    if (!real) real = dlsym(RTLD_NEXT, "realloc");
    if (refused()) { errno = ENOMEM; return NULL; }
    return real(old, size);
}
C
cc -O1 -shared -fPIC -o "$folder/refuse.so" "$folder/refuse.c" -ldl || exit 1
passed=0 failed=0
count() { if [ "$1" = ok ]; then passed=$((passed + 1)); else failed=$((failed + 1)); echo "$2"; fi; }

# refused N COMMAND ..: runs it with its Nth allocation refused; false where it made fewer
refused() {
  local n=$1
  shift
  rm -f "$folder/refused"
  REFUSE=$n REFUSED=$folder/refused LD_PRELOAD=$folder/refuse.so "$@" >"$folder/out" 2>"$folder/err"
  status=$?
  [ -e "$folder/refused" ]
}

program=${program:-crates/avrogate/out/avrogate}
# next N: the number of the allocation that is refused after the Nth
next() { if [ -n "${SHORT:-}" ]; then echo $(($1 + 1 + $1 / 5)); else echo $(($1 + 1)); fi; }
# each INPUT WORD ..: the program on an input, to these words
each() {
  local input=$1 runs=0 whole=0 n
  shift
  "$program" "$@" <"$input" >"$folder/whole" 2>"$folder/err" || whole=$?
  [ $whole -le 1 ] || { count bad "avrogate $*: status $whole"; return; }
  for ((n = 1; ; n = $(next $n))); do
    refused $n "$program" "$@" <"$input" || break
    runs=$((runs + 1))
    if [ $status = 4 ] && [ ! -s "$folder/out" ] && [ ! -s "$folder/err" ]; then
      count ok
    elif [ $status = $whole ] && { cmp -s "$folder/out" "$folder/whole" || grep -qE ' state memory$|^refused NoMemory$' "$folder/out"; }; then
      count ok
    else
      count bad "avrogate $*, allocation $n: status $status"
    fi
  done
  [ $runs -gt 0 ] || count bad "avrogate $*: no allocation was refused"
  echo "avrogate $*: $runs allocations refused in turn"
}
each crates/avrogate/stdin transcode
record='{"type":"record","name":"T","fields":[{"name":"a","type":["null","long"]},{"name":"b","type":"string"},{"name":"g","type":"bytes"}]}'
other='{"type":"record","name":"T","fields":[{"name":"b","type":"string"},{"name":"a","type":"long"},{"name":"d","type":"int","default":7}]}'
printf '%s\n' "$record" "$other" >"$folder/pair"
each "$folder/pair" compile
each "$folder/pair" compile --image
{ cat "$folder/pair"; printf '%s\n' 023606666f6f0200 'break 5' 'go 100' show 'step 2' show 'go 100' show list; } >"$folder/debug"
each "$folder/debug" debug
{ "$program" compile <"$folder/pair"; printf 'end\n02|3606|666f6f02|00\n0206666f6f\n0g\n'; } >"$folder/run"
each "$folder/run" run
echo "$record" >"$folder/one"
each "$folder/one" nodes
echo '{"type":"record","name":"T","fields":[{"name":"a","type":{"type":"array","items":"Adress"}}]}' >"$folder/bad"
each "$folder/bad" nodes
each "$folder/pair" check --level FULL
each "$folder/pair" explain
each "$folder/pair" explain --json
each "$folder/pair" explain --node 2 2
for mode in '' store upstream http11; do
  if PYTHONDONTWRITEBYTECODE=1 python3 tests/allocations/serve.py "$program" "$folder/refuse.so" "$folder" $mode; then count ok; else count bad "avrogate serve${mode:+ --$mode}: see above"; fi
done

# ask_again CRATE TEST ..: tests that ask again for what was refused, in the test program of their crate
ask_again() {
  local tests=crates/$1/out/$1_tests runs=0 test n
  shift
  [ -x "$tests" ] || { count bad "$tests is missing: run \`rt test\` there"; return; }
  for test in "$@"; do
    "$tests" "$test" >"$folder/out" 2>&1 && grep -q 'result: ok' "$folder/out" || { count bad "$tests has no test $test, or it fails"; continue; }
    for ((n = 1; ; n = $(next $n))); do
      refused $n "$tests" "$test" || break
      runs=$((runs + 1))
      if [ $status = 0 ] || grep -qE '[Ee]rror: .*(AllocError|AllocFailed|NoMemory|OutOfMemory)|no memory: (AllocError|AllocFailed|NoMemory)|left: Err\((Write|NoMemory)\)' "$folder/out" "$folder/err"; then
        count ok
      else
        count bad "$tests $test, allocation $n: $(cat "$folder/err" "$folder/out" | head -c 300)"
      fi
    done
    [ $n -gt 1 ] || count bad "$tests $test: no allocation was refused"
  done
  echo "$(basename "$tests"): $runs allocations refused in turn"
}
ask_again resolver_tests bytes_tests::forms_are_read_and_skipped
ask_again resolver_tests schema_tests::{reads_texts,tells_the_first_fault,numbers_nodes_and_reads_their_parts}
ask_again resolver_tests pair_tests::{payloads_are_read_and_written,outcomes_of_pairs,what_readers_make_of_data}
ask_again session_core_tests registry::command_tests::{answers_each_question,levels_compare_what_they_name,refuses_in_order,maps_grow,a_growth_without_memory_changes_nothing}
ask_again session_core_tests pair_row_tests::{one_cell_holds_one_pair,each_pair_has_its_own_cell}
ask_again session_pool_tests rows::{a_session_is_fed_piece_by_piece,a_debugger_is_answered,pieces_that_are_refused_are_handed_back}
ask_again session_pool_tests cache::{one_receipt_gives_one_program,schemas_are_published_by_their_texts}
ask_again session_pool_tests again::a_refused_growth_ends_one_session_at_most
ask_again gateway_tests memory::answers_are_the_same_after_a_refused_growth
ask_again machine_tests forms::program_tests::{keeps_lists_and_shares_them,a_program_shows_its_parts}
ask_again machine_tests forms::program_tests::parts_are_a_program_or_their_first_fault_is_told
ask_again machine_tests forms::listing_tests::texts_come_back_or_a_fault_is_told forms::image_tests::images_have_a_listing_or_a_first_fault
ask_again machine_tests row_tests::{worked_rows_come_out,slices_change_nothing,traps_are_told} text_tests::{texts_take_a_row_for_64_bytes,bytes_that_are_no_text_are_a_miss}
ask_again machine_tests show_tests::programs_are_listed arena_tests::rows_are_taken_one_by_one
ask_again commands_tests run_tests::cuts_and_slices_change_nothing pair_tests::payloads_by_themselves
ask_again commands_tests replay_tests::a_refused_growth_ends_one_session
echo "$passed passed, $failed failed"
[ $failed = 0 ]
