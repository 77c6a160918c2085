#!/usr/bin/env bash
# Makes OUT/avrogate.jar and OUT/libavrogate_jni.so of a FOLDER that tools/library.sh made. The class finds the library
# where java.library.path says, or by the path in the property avrogate.library. It needs a JDK from 11 on and a C
# compiler.
# Usage: bindings/java/build.sh FOLDER OUT
set -euo pipefail
[ $# = 2 ] || { echo "usage: $0 FOLDER OUT" >&2; exit 2; }
here=$(realpath "$(dirname "$0")") folder=$(realpath "$1")
mkdir -p "$2"
out=$(realpath "$2")
jdk=$(dirname "$(dirname "$(realpath "$(command -v javac)")")")
classes=$(mktemp -d)
trap 'rm -rf "$classes"' EXIT
javac --release 11 -Xlint:all -Werror -d "$classes" "$here"/src/main/java/avrogate/*.java
jar --create --file "$out/avrogate.jar" -C "$classes" .
echo '{ global: Java_avrogate_*; local: *; };' >"$classes/map"
cc -std=c99 -O2 -Wall -Wextra -Werror -shared -fPIC -Wl,--version-script,"$classes/map" -I"$folder/include" \
  -I"$jdk/include" -I"$jdk/include/linux" "$here/src/main/c/avrogate_jni.c" "$folder/lib/libavrogate.a" -o "$out/libavrogate_jni.so"
