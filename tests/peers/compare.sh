#!/usr/bin/env bash
# Compares the built program with Apache Avro's own libraries for Python and for Java on random pairs of schemas and payloads.
# Each difference has to be one of the rules in rules.py, and tests/peers/README.md says of each why our answer is the
# specification's: a model of the specification answers as the program does, and with a difference's rules on as the
# library does. Payloads over which a library would not end are not drawn. What is missing of Debian's packages python3-avro,
# libavro-java and default-jdk-headless is installed with apt-get, which needs root. The gate runs it.
# Usage: tests/peers/compare.sh PROGRAM [PAIRS] [SEED]   (20,000 pairs, or 1,000 with SHORT=1 in the environment, and seed 1)
# Status: 0 nothing is left over, 1 something is, 2 a package cannot be had or a step failed.
set -uo pipefail
if [ $# -lt 1 ]; then echo "usage: $0 PROGRAM [PAIRS] [SEED]" >&2; exit 2; fi
default=20000
[ -z "${SHORT:-}" ] || default=1000
program=$(realpath "$1") pairs=${2:-$default} seed=${3:-1}
here=$(cd "$(dirname "$0")" && pwd)
. "$here/../packages.sh"
packages python3-avro libavro-java default-jdk-headless
python=/usr/bin/python3
jars=/usr/share/java
classpath=$jars/avro.jar:$jars/jackson-core-asl.jar:$jars/jackson-mapper-asl.jar:$jars/slf4j-api.jar:$jars/slf4j-nop.jar
for jar in ${classpath//:/ }; do [ -e "$jar" ] || { echo "$0: libavro-java has no $jar" >&2; exit 2; }; done
folder=$(mktemp -d)
trap 'rm -rf "$folder"' EXIT
cd "$folder" || exit 2
export PYTHONDONTWRITEBYTECODE=1
failed() { echo "$0: $1 failed" >&2; exit 2; }
"$python" "$here/generate.py" pairs "$pairs" "$seed" || failed generate.py
javac -cp "$classpath" -d . "$here/Peer.java" || failed javac
"$python" "$here/run_program.py" "$program" pairs program.out || failed run_program.py
timeout 3600 java -Xmx2g -cp "$classpath:." Peer pairs java.out & java=$!
timeout 3600 "$python" "$here/python_peer.py" pairs python.out || failed python_peer.py
wait $java || failed Peer
"$python" "$here/compare.py" pairs program.out python.out java.out
