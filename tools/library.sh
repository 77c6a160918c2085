#!/usr/bin/env bash
# Makes the library that programs in other languages use: FOLDER/include/avrogate.h, FOLDER/lib/libavrogate.a,
# FOLDER/lib/libavrogate.so and FOLDER/lib/pkgconfig/avrogate.pc. Both libraries show the functions of the header alone.
# The code is what `rt lib` makes of crates/avrogate_c, which takes minutes where the crates below are built in this
# checkout, and the time of their proofs where they are not; where `rt ci` has left their libraries, and nothing has
# changed since, it is compiled over those; and where nothing has changed since it was made here, it is taken as it is.
# Beside it is the toolchain's object that calls malloc, realloc and free.
# It needs a C compiler and binutils, which are installed with apt-get where there are none.
# Usage: tools/library.sh FOLDER
set -euo pipefail
[ $# = 1 ] || { echo "usage: $0 FOLDER" >&2; exit 2; }
mkdir -p "$1"
folder=$(realpath "$1") top=$(realpath "$(dirname "$0")/..")
. "$top/tests/packages.sh"
command_of cc gcc libc6-dev
command_of objcopy binutils
kit=$(dirname "$(rt doc)")
crate=$top/crates/avrogate_c
# libraries_of CRATE: the libraries of its line in crates.txt that have a line there too
libraries_of() { sed -n "s/^$1\( [^:]*\)\?: //p" "$top/crates.txt" | tr ' ' '\n' | grep -xFf <(sed -n 's/^\([a-z]\w*\).*:.*/\1/p' "$top/crates.txt") || true; }
mapfile -t listed < <(libraries_of avrogate_c)
# All that it is made of: the libraries of its line, those of theirs, and so on.
below=("${listed[@]}")
for ((at = 0; at < ${#below[@]}; at++)); do
  for name in $(libraries_of "${below[at]}"); do
    [[ " ${below[*]} " == *" $name "* ]] || below+=("$name")
  done
done

archive=$crate/out/libavrogate_c.a

# is_older CRATE THAN: whether no file of a crate is newer
is_older() { [ -z "$(find "$top/crates/$1" -path '*/out' -prune -o -newer "$2" -type f -print -quit)" ]; }
# Whether the code has been made here, later than all that it is made of.
is_made() {
  local name
  [ -e "$archive" ] && [ "$archive" -nt "$top/crates.txt" ] && [ "$archive" -nt "$kit/KIT-ID" ] || return 1
  for name in avrogate_c "${below[@]}"; do is_older "$name" "$archive" || return 1; done
}
# Whether `rt ci` has left each library below, later than all that it is made of. (Its folder tells when: its files may
# be those of an earlier run.)
are_left() {
  local name rlib
  for name in "${below[@]}"; do
    rlib=$top/crates/$name/out/rlib/$name.rlib
    [ -e "$rlib/format" ] && [ ! -e "$top/crates/$name/out/rlib/stamp" ] && is_older "$name" "$rlib" || return 1
  done
}
# Compiles the crate over those.
compile() {
  local name rlib words=(--crate-name avrogate_c src/lib.rt)
  words+=(--extern "std=$kit/rlibs/std.rlib" -L "dependency=$kit/rlibs")
  for name in "${listed[@]}"; do words+=(--extern "$name=$top/crates/$name/out/rlib/$name.rlib"); done
  for rlib in "$top"/crates/*/out/rlib; do words+=(-L "dependency=$rlib"); done
  words+=(--antt-project "$kit/rattle/logic/antt-project.json" --logic-built "$kit/logic_built" --jobs 2)
  for name in avrogate_c "${below[@]}"; do words+=(--links "$name="); done
  words+=(--crate-type staticlib --toolchain "$kit/toolchain" --backend llvm)
  "$kit/bin/rattle" build "${words[@]}" -o out/libavrogate_c.a
}
log=$(mktemp) work=$(mktemp -d)
trap 'rm -rf "$log" "$work"' EXIT
cd "$crate"
mkdir -p out
if ! is_made; then
  if are_left; then compile >"$log" 2>&1; else rt lib >"$log" 2>&1; fi || { tail -n 40 "$log" >&2; exit 1; }
  grep '^logic=' "$log" | tail -n 1
fi

cd "$work"
ar x "$archive"
ar x "$kit/c/liblibc_c.a"
ld -r -o whole.o ./*.o
objcopy --wildcard --keep-global-symbol='avrogate_*' whole.o avrogate.o
mkdir -p "$folder/include" "$folder/lib/pkgconfig"
cp "$top/include/avrogate.h" "$folder/include/"
number() { sed -n "s/^#define AVROGATE_VERSION_$1 //p" "$folder/include/avrogate.h"; }
major=$(number MAJOR) version=$major.$(number MINOR).$(number PATCH)
rm -f "$folder/lib/libavrogate.a"
ar rcsD "$folder/lib/libavrogate.a" avrogate.o
echo 'AVROGATE { global: avrogate_*; local: *; };' >map
cc -shared -Wl,-soname,"libavrogate.so.$major" -Wl,--version-script,map -Wl,-z,defs -Wl,-z,relro,-z,now \
  -o "$folder/lib/libavrogate.so.$major" avrogate.o
ln -sf "libavrogate.so.$major" "$folder/lib/libavrogate.so"
cat >"$folder/lib/pkgconfig/avrogate.pc" <<PC
prefix=\${pcfiledir}/../..
Name: avrogate
Description: Avro messages, rewritten from their writer's schema into a reader's
Version: $version
Cflags: -I\${prefix}/include
Libs: -L\${prefix}/lib -lavrogate
PC
echo "made $folder/lib/libavrogate.a and $folder/lib/libavrogate.so, version $version"
