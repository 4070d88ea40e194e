#!/usr/bin/env bash
# Builds the tester's tool over the archive of the proved core: interface/target/release/tester; compare too.
# The archive is HANDSET_LIB/libhandset.a; without it target/staticlib's, which tools/archive.sh makes where it is missing or older than the code.
set -euo pipefail
here=$(cd -- "$(dirname -- "${BASH_SOURCE[0]}")" && pwd)
root=$(dirname -- "$here")

[[ -n ${HANDSET_LIB:-} ]] || bash "$root/tools/archive.sh"
cargo build --release --quiet --manifest-path "$here/Cargo.toml"
echo "$here/target/release/tester"
