#!/usr/bin/env bash
# Runs what README.md and the pages for operators and users show as shell sessions, and compares what is printed with
# what the page shows. A block whose first line begins with four spaces and `$ ` is such a session; all blocks of a page
# run one after another in one shell, in a folder of their own. What is missing of the commands is installed with
# apt-get, which needs root. The gate runs it.
# Usage: tests/pages.sh [PROGRAM [PAGE ..]]   (crates/avrogate/out/avrogate and all these pages if they are left out)
set -euo pipefail
here=$(dirname "$(realpath "$0")")
program=$(realpath "${1:-$here/../crates/avrogate/out/avrogate}")
cd "$here/.."
pages=(README.md docs/COMMANDS.md docs/OPERATING.md docs/CLIENTS.md docs/ERRORS.md docs/COOKBOOK.md)
[ $# -le 1 ] || pages=("${@:2}")
. tests/packages.sh
command_of python3 python3
command_of curl curl
command_of jq jq
command_of xxd xxd
PYTHONDONTWRITEBYTECODE=1 exec python3 tests/pages/pages.py "$program" "${pages[@]}"
