# To be sourced. `packages NAME ..` installs those of Debian's packages that are missing, which needs root, and says so on
# standard error; where that fails the script ends with status 77, which is no failure: it was left out.
packages() {
  local name missing=()
  for name in "$@"; do
    [ "$(dpkg-query -W -f '${db:Status-Status}' "$name" 2>/dev/null)" = installed ] || missing+=("$name")
  done
  [ ${#missing[@]} = 0 ] && return
  echo "$0 installs ${missing[*]}" >&2
  { apt-get update -qq && DEBIAN_FRONTEND=noninteractive apt-get install -y -qq --no-install-recommends "${missing[@]}"; } >&2 \
    || { echo "$0 needs Debian's packages ${missing[*]}, and apt-get could not install them" >&2; exit 77; }
}
# `command_of NAME PACKAGE ..`: the packages, where there is no such command.
command_of() { command -v "$1" >/dev/null || packages "${@:2}"; }
