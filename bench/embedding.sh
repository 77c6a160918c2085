#!/usr/bin/env bash
# What a message takes by the library and by avro-c, in one run: a record of 6 fields, 41 bytes, to the same schema,
# and to one that drops a field, promotes one and has the others in another order. Instructions are those of two runs
# less those of one, counted by valgrind's callgrind, which no other load of the machine changes; times are of the
# processor, the least of 5 runs, alternating. Outputs are compared byte for byte. It needs a folder that
# tools/library.sh made, and installs with apt-get what is missing of Debian's libavro-dev, gcc and valgrind. Not part
# of the gate.
# Usage: bench/embedding.sh FOLDER
set -euo pipefail
[ $# = 1 ] || { echo "usage: $0 FOLDER" >&2; exit 2; }
here=$(dirname "$(realpath "$0")") made=$(realpath "$1")
. "$here/../tests/packages.sh"
command_of cc gcc libc6-dev
command_of valgrind valgrind
packages libavro-dev
work=$(mktemp -d)
trap 'rm -rf "$work"' EXIT
cc -std=gnu99 -O2 -Wall -Wextra -Werror -I"$made/include" "$here/embedding.c" "$made/lib/libavrogate.a" -lavro \
  -o "$work/embedding"
instructions() {
  valgrind --tool=callgrind --callgrind-out-file=/dev/null "$work/embedding" "$1" "$2" "$3" 2>&1 >/dev/null \
    | sed -n 's/.*Collected : //p'
}
for record in same evolved; do
  for who in ours batch avro; do
    for run in 1 2 3 4 5; do "$work/embedding" "$who" "$record" 640000; done >"$work/$who.$record"
  done
done
printf '%-10s %-10s %20s %20s\n' record by instructions 'ns of the processor'
for record in same evolved; do
  for who in ours batch avro; do
    once=$(instructions "$who" "$record" 6400) twice=$(instructions "$who" "$record" 12800)
    least=$(sort -n "$work/$who.$record" | head -n 1)
    printf '%-10s %-10s %20d %20s\n' "$record" "$who" $(((twice - once) / 6400)) "$least"
  done
done
