#!/usr/bin/env bash
# The library for programs in other languages, made by tools/library.sh: its header beside the source, what it
# exports; C and C++ as strict compilers take them, statically and dynamically; valgrind on memory and, with four
# threads, on races; each allocation refused in turn; the stack that the header tells; the packages for Python
# (installed by pip without a network; with a consumer of librdkafka's mock cluster that upgrades 10,000 messages),
# Go, Rust and Java, each on pairs of schemas and payloads of tests/peers' generator with the answers of its model of
# the specification; and what docs/EMBEDDING.md shows. A line for each check that fails. With SHORT=1 in the
# environment there are 500 pairs in place of 5,000. What is missing of Debian's gcc, g++, binutils, pkg-config,
# valgrind, python3, python3-pip, python3-setuptools, python3-wheel, python3-confluent-kafka, golang-go, cargo and
# default-jdk-headless is installed with apt-get, which needs root. The gate runs it; `transcoder_handle` has tests
# of the calls besides.
# Usage: tests/embedding.sh [PAIRS] [SEED]
set -uo pipefail
top=$(realpath "$(dirname "$0")/..")
. "$top/tests/packages.sh"
command_of cc gcc libc6-dev
command_of c++ g++
command_of objcopy binutils
command_of pkg-config pkg-config
command_of valgrind valgrind
command_of go golang-go
command_of cargo cargo
command_of javac default-jdk-headless
packages python3 python3-pip python3-setuptools python3-wheel python3-confluent-kafka
default=5000
[ -z "${SHORT:-}" ] || default=500
pairs=${1:-$default} seed=${2:-1}
python=/usr/bin/python3
folder=$(mktemp -d)
trap 'chmod -R u+w "$folder"; rm -rf "$folder"' EXIT
export PYTHONDONTWRITEBYTECODE=1
passed=0 failed=0
# check NAME COMMAND ..: what it prints is shown where it fails
check() {
  if "${@:2}" >"$folder/out" 2>&1; then
    passed=$((passed + 1))
  else
    echo "failed: $1"
    tail -n 15 "$folder/out" | sed 's/^/  /'
    failed=$((failed + 1))
  fi
}
own=$top/tests/embedding made=$folder/avrogate
archive=$made/lib/libavrogate.a shared=$made/lib/libavrogate.so
strict=(-O2 -Wall -Wextra -Werror -pedantic -I"$made/include")

check 'tools/library.sh' "$top/tools/library.sh" "$made"
[ -e "$archive" ] || { tail -n 40 "$folder/out"; echo "$passed passed, $((failed + 1)) failed"; exit 1; }

check 'the header and its source' "$python" "$own/header.py" "$top" "$folder/layout.c"
check 'sizes and offsets' cc -std=c99 "${strict[@]}" "$folder/layout.c" -o "$folder/layout"
sed -n 's/.*extern "C" fn \(avrogate_[a-z_]*\).*/\1/p' "$top/crates/avrogate_c/src/lib.rt" | sort >"$folder/exports"
nm -D --defined-only "$shared" | sed -n 's/.* [A-Z] \([a-z]\w*\).*/\1/p' | sort >"$folder/of_shared"
nm --defined-only --extern-only "$archive" | sed -n 's/.* [A-Z] \(\w*\)$/\1/p' | sort >"$folder/of_archive"
check 'what the shared library exports' diff "$folder/exports" "$folder/of_shared"
check 'what the archive exports' diff "$folder/exports" "$folder/of_archive"
nm -u "$archive" | sed -n 's/^ *U //p' | sort | tr '\n' ' ' >"$folder/needs"
check 'what the archive needs' grep -qx 'free malloc memcpy memmove memset realloc ' "$folder/needs"

# build NAME WORD ..: a program of tests/embedding, over the archive
build() { check "$1.c" cc -std=c99 "${strict[@]}" "${@:2}" "$own/$1.c" "$archive" -o "$folder/$1"; }
# prints NAME COMMAND ..: it ends well, and prints what stands in tests/embedding/transcode.stdout
prints() { check "$1" bash -c '"${@:2}" >"$1/told" && diff "$1/told" "$0"' "$own/transcode.stdout" "$folder" "${@:2}"; }
build transcode
prints 'each call in C' "$folder/transcode"
prints 'memory by valgrind' valgrind -q --leak-check=full --error-exitcode=9 "$folder/transcode"
dynamic() {
  cc -std=c99 "$own/transcode.c" $(PKG_CONFIG_PATH=$made/lib/pkgconfig pkg-config --cflags --libs avrogate) \
    -o "$folder/dynamic"
}
check 'pkg-config' dynamic
prints 'each call of the shared library' env LD_LIBRARY_PATH="$made/lib" "$folder/dynamic"
echo '#include <avrogate.h>' >"$folder/header.cpp"
check 'the header in C++' c++ -std=c++11 "${strict[@]}" -fsyntax-only "$folder/header.cpp"
build threads -pthread
check 'four threads' "$folder/threads"
check 'four threads by helgrind' valgrind -q --tool=helgrind --error-exitcode=9 "$folder/threads"
build refusals -Wl,--wrap=malloc,--wrap=realloc,--wrap=free
check 'each allocation refused' "$folder/refusals"
build deep
for what in one copied turned tree; do
  check "512 KiB of stack to transcode, $what" bash -c 'ulimit -s 512; exec "$0" "$1" 999' "$folder/deep" $what
done
for depth in 100 127 128 500; do
  check "512 KiB of stack to transcode, $depth arrays with sizes" bash -c 'ulimit -s 512; exec "$0" sized "$1"' "$folder/deep" $depth
done
check '256 KiB of stack to open, arrays' bash -c 'ulimit -s 256; exec "$0" schema 127' "$folder/deep"
check '256 KiB of stack to open, records' bash -c 'ulimit -s 256; exec "$0" names 1022' "$folder/deep"

count=$("$python" "$own/cases.py" "$folder/cases" "$pairs" "$seed") || exit 1
export CASES=$folder/cases
cp -r "$top/bindings" "$folder/bindings"
cd "$folder/bindings" || exit 1
# counted COMMAND ..: it ends well, and says how many payloads it has compared, which are those of the cases
counted() {
  "$@" 2>&1 | tee "$folder/counted"
  [ "${PIPESTATUS[0]}" = 0 ] && grep -q "^\.*$count payloads alone, as messages and in batches" "$folder/counted"
}

install=(install -q --no-index --no-build-isolation --no-deps --root-user-action ignore --target "$folder/python")
check 'pip install' "$python" -m pip "${install[@]}" ./python
export PYTHONPATH=$folder/python AVROGATE_LIBRARY=$shared
check 'Python' counted "$python" -m unittest discover -s python/tests
upgrade() { "$python" python/tests/kafka_upgrade.py 10000 >"$folder/upgraded"; }
check 'an upgrading consumer' upgrade
check 'all of its messages' grep -x '10000 messages upgraded, 0 differ' "$folder/upgraded"
unset PYTHONPATH
export PKG_CONFIG_PATH=$made/lib/pkgconfig LD_LIBRARY_PATH=$made/lib GOCACHE=$folder/gocache GOFLAGS=-mod=mod
go_tests() { (cd go && go vet ./... && go test -v -count=1 ./...); }
check 'Go' counted go_tests
rust_tests() { (cd rust && AVROGATE_FOLDER=$made CARGO_TARGET_DIR=$folder/rust cargo test --offline -- --nocapture); }
check 'Rust' counted rust_tests
check 'bindings/java/build.sh' java/build.sh "$made" "$folder/java"
java_tests() {
  local jar=$folder/java/avrogate.jar classes=$folder/java/tests
  javac -Xlint:all -cp "$jar" -d "$classes" java/src/test/java/avrogate/Cases.java \
    && java -Xcheck:jni -cp "$jar:$classes" -Djava.library.path="$folder/java" avrogate.Cases "$CASES"
}
check 'Java' counted java_tests
unset PKG_CONFIG_PATH LD_LIBRARY_PATH AVROGATE_LIBRARY GOFLAGS

mkdir "$folder/page"
check 'docs/EMBEDDING.md' "$python" "$own/page.py" "$top" "$folder/shown" "$folder/page"
echo "$count payloads of $pairs pairs, in four languages alone, as messages and in batches"
echo "$passed passed, $failed failed"
[ "$failed" = 0 ]
