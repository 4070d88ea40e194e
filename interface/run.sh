#!/usr/bin/env bash
# Tests the archive that firmware links, and the tester's tool: run.sh [COUNT [SEED]]
# Checks pages and header against the tree (tools/check.sh), the header's structs and calls field by field; runs the C tests, the example of firmware and
# the tool's tests; then compares COUNT random hands, and logs, with the other scorer.
# The archive is HANDSET_LIB/libhandset.a; without it, build.sh sees to it. Ends with `interface: all agree` or exits 1.
set -euo pipefail
trap 'echo "interface: failed" >&2; exit 1' ERR

count=${1:-100000}
seed=${2:-1}
here=$(cd -- "$(dirname -- "${BASH_SOURCE[0]}")" && pwd)
root=$(dirname -- "$here")

bash "$root/tools/check.sh"

if [[ -n ${HANDSET_LIB:-} ]]; then
    HANDSET_LIB=$(cd -- "$HANDSET_LIB" && pwd)
    export HANDSET_LIB
fi
bash "$here/build.sh"
archive=${HANDSET_LIB:-$root/target/staticlib}/libhandset.a
echo "archive: $archive"

made=$(mktemp -d)
trap 'rm -rf -- "$made"' EXIT
gcc -std=c99 -Wall -Wextra -Werror -I "$root/include" "$here"/tests/*.c "$archive" -o "$made/test"
"$made/test"
gcc -std=c99 -Wall -Wextra -Werror -I "$root/include" "$root/examples/firmware.c" "$archive" -o "$made/firmware"
"$made/firmware" | diff - "$root/examples/firmware.txt"
echo "examples/firmware.c prints what it should"

cd -- "$here"
cargo test --release --quiet

# Over a wrong archive the tool says so, and its exit status is 1.
gcc -std=c99 -I "$root/include" -c wrong.c -o "$made/wrong.o"
objcopy --redefine-sym hb_score=right_score --redefine-sym hb_reading=right_reading "$archive" "$made/libhandset.a"
ar r "$made/libhandset.a" "$made/wrong.o"
HANDSET_LIB=$made cargo build --quiet --package tester --target-dir "$made/target"
status=0
"$made/target/debug/tester" hand 234567m345p67s22s+8s seat=1 ron=3 >"$made/out" 2>"$made/err" || status=$?
[[ $status -eq 1 ]]
grep -q 'THE TWO SCORERS DIFFER' "$made/err"
grep -q '^!!! Score$' "$made/err"
grep -q '^!!! a reading$' "$made/err"
grep -q 'THE TWO SCORERS DIFFER' "$made/out"
status=0
"$made/target/debug/tester" rotate 234567m345p67s22s+8s seat=1 ron=3 by=1 >"$made/out" 2>"$made/err" || status=$?
[[ $status -eq 1 ]]
grep -q 'NOT AS PROMISED' "$made/out"
echo "a wrong archive is told: exit status 1"

target/release/compare "$count" "$seed"
echo "interface: all agree"
