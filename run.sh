#!/usr/bin/env bash
# Proves and builds the program where that is still to be done, then runs it: bash run.sh WORDS..
set -u
top=$(cd "$(dirname "$0")" && pwd)
if ! (cd "$top/crates/kiln" && rt run -- help >"$top/.build.log" 2>&1); then
  tail -n 20 "$top/.build.log" >&2
  echo "run.sh: kiln is not proved; the whole output is in .build.log" >&2
  exit 2
fi
exec "$top/crates/kiln/out/kiln" "$@"
