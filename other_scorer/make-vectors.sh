#!/bin/sh
# Makes the file of scored hands again and compares it with ../crates/vectors/stdin.
# Prints `unchanged` or `changed`; with --write also puts the new file there.
# The coverage goes to standard error. Exit 1: changed and not written, or a step failed.
set -eu

seed=1
count=20000
here=$(CDPATH= cd -- "$(dirname -- "$0")" && pwd)
kept=$here/../crates/vectors/stdin
made=$(mktemp)
trap 'rm -f "$made"' EXIT

case ${1-} in
    '' | --write) ;;
    *) echo "make-vectors.sh [--write]" >&2; exit 2 ;;
esac

cd "$here"
cargo build --release --quiet
./target/release/hands "$seed" "$count" "$made" >&2

if cmp -s "$made" "$kept"; then
    echo unchanged
    exit 0
fi
echo changed
[ "${1-}" = --write ] || exit 1
mkdir -p "$(dirname -- "$kept")"
cp "$made" "$kept"
chmod 644 "$kept"
