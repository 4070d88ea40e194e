#!/usr/bin/env bash
# The desk handset: run.sh [PORT]. Builds the tester's tool where it is missing or older than its sources, starts a server on 127.0.0.1 and
# prints the address to open in a browser. It stays until it is interrupted. HANDSET_LIB names another archive, as for interface/build.sh.
set -euo pipefail
here=$(cd -- "$(dirname -- "${BASH_SOURCE[0]}")" && pwd)
root=$(dirname -- "$here")
tool=$root/interface/target/release/tester

sources=("$root/interface/archive" "$root/interface/tester/src" "$root/other_scorer/src" "$root/docs/clips.tsv" "$root/crates")
if [[ ! -x $tool || -n ${HANDSET_LIB:-} || -n $(find "${sources[@]}" -type f -newer "$tool" -not -name '*.antt' -print -quit) ]]; then
    echo "building the tool, which takes a while the first time"
    bash "$root/interface/build.sh"
    touch "$tool"
fi
exec python3 "$here/server" --tool "$tool" --port "${1:-8039}"
