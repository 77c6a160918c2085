#!/usr/bin/env bash
# What the built program does beyond its answers, which crates/worked_rows has: its words, its statuses, and devices
# that fail. The gate runs it.
# Usage: tests/program.sh PROGRAM
set -uo pipefail
program=$(realpath "$1")
top=$(realpath "$(dirname "$0")/..")
folder=$(mktemp -d)
trap 'rm -rf "$folder"' EXIT
out=$folder/out err=$folder/err
passed=0 failed=0
# want STATUS OUT ERR: the status, and whether something has to go to standard output and standard error (some, none)
want() {
  local status=$?
  local got="$status $([ -s "$out" ] && echo some || echo none) $([ -s "$err" ] && echo some || echo none)"
  if [ "$got" = "$2 $3 $4" ]; then passed=$((passed + 1)); else echo "$1: $got, wanted $2 $3 $4"; failed=$((failed + 1)); fi
}
schemas=$'"int"\n"long"\n'
printf '%s03\n' "$schemas" | "$program" transcode >"$out" 2>"$err"; want transcode 0 some none
printf '"float"\n' | "$program" transcode >"$out" 2>"$err"; want 'bad schema' 1 some none
"$program" </dev/null >"$out" 2>"$err"; want 'no subcommand' 2 none some
"$program" fly </dev/null >"$out" 2>"$err"; want 'no such subcommand' 2 none some
"$program" transcode --fast </dev/null >"$out" 2>"$err"; want 'no such flag' 2 none some
"$program" $'tr\xffans' </dev/null >"$out" 2>"$err"; want 'a word that is no UTF-8' 2 none some
"$program" --help </dev/null >"$out" 2>"$err"; want help 0 some none
"$program" --help </dev/null >/dev/full 2>"$err"; status=$?; : >"$out"; (exit $status); want 'help to a full device' 3 none none
"$program" --version </dev/null >"$out" 2>"$err"; want version 0 some none
# Each help ends with an example, a call of `avrogate` with what it writes: so it does.
avrogate() { "$program" "$@"; }
for subcommand in transcode compile run debug replay nodes check explain; do
  "$program" "$subcommand" --help </dev/null >"$out" 2>"$err"; want "help of $subcommand" 0 some none
  sed -n '/^Example:/,$s/^  //p' "$out" >"$folder/example"
  if [ "$(eval "$(head -n 1 "$folder/example")")" = "$(tail -n +2 "$folder/example")" ] && [ "$(wc -l <"$folder/example")" -gt 1 ]; then
    passed=$((passed + 1))
  else
    echo "the example of $subcommand's help"; failed=$((failed + 1))
  fi
done
# The man page names each subcommand.
for subcommand in $("$program" --help | sed -n '/^Commands:/,/^$/s/^  \([a-z]*\) .*/\1/p' | grep -v '^help$'); do
  if grep -q "^\.B $subcommand" "$top/packaging/avrogate.1"; then
    passed=$((passed + 1))
  else
    echo "packaging/avrogate.1 lacks $subcommand"; failed=$((failed + 1))
  fi
done
# The two that make and read a store do so in a folder, one after the other.
for subcommand in import export; do
  "$program" "$subcommand" --help </dev/null >"$out" 2>"$err"; want "help of $subcommand" 0 some none
  sed -n '/^Example:/,$s/^  //p' "$out" >"$folder/example"
  if [ "$(cd "$folder" && eval "$(head -n 1 "$folder/example")")" = "$(tail -n +2 "$folder/example")" ] && [ "$(wc -l <"$folder/example")" -gt 1 ]; then
    passed=$((passed + 1))
  else
    echo "the example of $subcommand's help"; failed=$((failed + 1))
  fi
done
cmp -s "$folder/registry.store" "$folder/copy.store" || { echo "a store that was exported and imported differs"; failed=$((failed + 1)); }
"$program" import </dev/null >"$out" 2>"$err"; want 'import without a file' 2 none some
"$program" import --store "$folder/registry.store" </dev/null >"$out" 2>"$err"; want 'import into a file that is there' 3 some none
"$program" export </dev/null >"$out" 2>"$err"; want 'export of no bytes' 3 some none
printf -- '--' | "$program" export >"$out" 2>"$err"; want 'export of an empty store' 0 none none
"$program" export <"$folder/registry.store" >/dev/full 2>"$err"; status=$?; : >"$out"; (exit $status); want 'export to a full device' 3 none none
printf 'level * NOTHING\n' | "$program" import --store "$folder/a" >"$out" 2>"$err"; want 'import of a bad level' 3 some none
"$program" serve --port 0 --store "$folder" </dev/null >"$out" 2>"$err"; want 'a folder as a store' 3 some none
printf '%s03\n' "$schemas" | "$program" transcode >/dev/full 2>"$err"; status=$?; : >"$out"; (exit $status); want 'full device' 3 none none
"$program" transcode <&- >"$out" 2>"$err"; want 'closed input' 3 none none
printf '%s' "$schemas" | "$program" transcode >"$out" 2>"$err"; want 'no payload' 0 none none
printf '%s' "$schemas" | "$program" compile >"$out" 2>"$err"; want compile 0 some none
printf '%s' "$schemas" | "$program" compile --image >"$out" 2>"$err"; want 'compile --image' 0 some none
printf '%sno message\n' "$schemas" | "$program" compile >"$out" 2>"$err"; want 'compile and a further line' 0 some none
printf '"int"\n"float"\n' | "$program" compile >"$out" 2>"$err"; want 'compile and a bad schema' 1 some none
printf '%s' "$schemas" | "$program" transcode --image >"$out" 2>"$err"; want 'transcode --image' 2 none some
printf '%s' "$schemas" | "$program" compile >/dev/full 2>"$err"; status=$?; : >"$out"; (exit $status); want 'compile to a full device' 3 none none
listing=$'avro program 1\n0 TEXT\n1 HALT\nend\n'
printf '%s02|61\n' "$listing" | "$program" run >"$out" 2>"$err"; want run 0 some none
printf '%s02|61\n' "$listing" | "$program" run --steps 1 >"$out" 2>"$err"; want 'run --steps' 0 some none
printf '%s' "$listing" | "$program" run >"$out" 2>"$err"; want 'run and no payload' 0 none none
printf 'end\n02\n' | "$program" run >"$out" 2>"$err"; want 'run and a bad listing' 1 some none
printf '%s' "$listing" | "$program" run --steps 0 >"$out" 2>"$err"; want 'run --steps 0' 2 none some
printf '%s' "$listing" | "$program" run --steps 1000000001 >"$out" 2>"$err"; want 'run and too many steps' 2 none some
printf '%s' "$listing" | "$program" run --image >"$out" 2>"$err"; want 'run --image' 2 none some
printf '%s03\nshow\n' "$schemas" | "$program" debug >"$out" 2>"$err"; want debug 0 some none
printf '%s03\n' "$schemas" | "$program" debug >"$out" 2>"$err"; want 'debug and no command' 0 none none
printf '%s0\nshow\n' "$schemas" | "$program" debug >"$out" 2>"$err"; want 'debug and a bad payload' 1 some none
printf '"int"\n"float"\n03\n' | "$program" debug >"$out" 2>"$err"; want 'debug and a bad schema' 1 some none
printf 'publish 1 1\nno event\n' | "$program" replay >"$out" 2>"$err"; want replay 0 some none
"$program" replay </dev/null >"$out" 2>"$err"; want 'replay of no line' 0 none none
printf 'finish 0\n' | "$program" replay >/dev/full 2>"$err"; status=$?; : >"$out"; (exit $status); want 'replay to a full device' 3 none none
"$program" replay more </dev/null >"$out" 2>"$err"; want 'replay and a further word' 2 none some
printf '%s02|61\n' "$listing" | "$program" run >/dev/full 2>"$err"; status=$?; : >"$out"; (exit $status); want 'run to a full device' 3 none none
# A line that is longer than a schema may be is answered as any other, whether it is JSON or not.
too_large='bad schema 1 TooLarge at /'
for row in "300000 [ $too_large" "262145 [ $too_large" '262144 [ bad schema 1 NotJson'; do
  read -r length byte answer <<<"$row"
  for subcommand in nodes check; do
    head -c "$length" /dev/zero | tr '\0' "$byte" | "$program" "$subcommand" >"$out" 2>"$err"; want "$subcommand of $length $byte" 1 some none
    [ "$(cat "$out")" = "$answer" ] && passed=$((passed + 1)) || { echo "$subcommand of $length $byte: $(head -c 100 "$out")"; failed=$((failed + 1)); }
  done
done
{ printf '"'; head -c 300000 /dev/zero | tr '\0' a; printf '"\n'; } | "$program" nodes >"$out" 2>"$err"; want 'nodes of a long text' 1 some none
[ "$(cat "$out")" = "$too_large" ] && passed=$((passed + 1)) || { echo "nodes of a long text: $(head -c 100 "$out")"; failed=$((failed + 1)); }
for words in '--port 65536' '--port -1' '--clients 0' '--clients 65' '--each -1' '--each 4294967296' '--request-timeout 0' \
  '--request-timeout 3601' '--workers' '--workers 0' '--workers 65' '--connections 0' '--connections 65537' '--head-timeout 0' \
  '--head-timeout 3601' '--address' '--address localhost' '--address 127.0.0.256' '--log yes' 'more'; do
  "$program" serve $words </dev/null >"$out" 2>"$err"; want "serve $words" 2 none some
done
"$program" serve --help </dev/null >"$out" 2>"$err"; want 'help of serve' 0 some none
: >"$out"  # the help of serve has the word that is waited for
timeout 900 "$program" serve --port 0 --clients 2 --each 1 </dev/null >"$out" 2>"$err" & server=$!
for _ in $(seq 600); do grep -q '^listening ' "$out" && break; sleep 0.1; done
port=$(sed -n 's/^listening //p' "$out")
[ -n "$port" ] || { echo "serve does not say where it listens: $(head -c 300 "$out" "$err")"; kill "$server"; }
"$program" serve --port "$port" </dev/null >"$folder/second" 2>"$folder/second_err"; status=$?
[ "$status" = 3 ] && grep -qx "cannot listen on 127.0.0.1:$port: .*" "$folder/second" && [ ! -s "$folder/second_err" ] && passed=$((passed + 1)) \
  || { echo "a port that is taken: $status"; failed=$((failed + 1)); }
for path in config nowhere; do
  exec 3<>"/dev/tcp/127.0.0.1/$port"; printf 'GET /%s HTTP/1.1\r\n\r\n' "$path" >&3; timeout 300 cat <&3 >/dev/null; exec 3>&-
done
wait "$server"; want 'serve of two connections' 0 some none
[ "$(tail -1 "$out")" = 'served 2' ] && passed=$((passed + 1)) || { echo "serve told $(tail -1 "$out")"; failed=$((failed + 1)); }
echo "$passed passed, $failed failed"
[ "$failed" = 0 ]
