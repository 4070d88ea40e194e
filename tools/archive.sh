#!/usr/bin/env bash
# The archive that firmware links, target/staticlib/libhandset.a, made where it is missing or older than the code: archive.sh [--mir]
# It proves what has changed since it was last proved.
# --mir: the proved library of handset and those below it instead, target/rlib, with the MIR that portable/make.sh reads.
# interface/build.sh, portable/make.sh, portable/board.sh and tools/cost.py call it, so that none of them proves what another has.
set -euo pipefail
cd -- "$(dirname -- "${BASH_SOURCE[0]}")/.."
archive=target/staticlib/libhandset.a
if [[ ${1:-} != --mir && -f $archive && -z $(find crates -name '*.rt' -newer "$archive" -print -quit) ]]; then exit; fi
command -v rt >/dev/null || { echo "archive.sh: rt, which proves and writes $archive, is not installed" >&2; exit 2; }

crate=handset_c
[[ ${1:-} != --mir ]] || crate=handset
log=$(mktemp)
trap 'rm -f -- "$log"' EXIT
if ! (cd -- "crates/$crate" && rt lib) >"$log" 2>&1; then
    tail -40 -- "$log"
    echo "archive.sh: not proved" >&2
    exit 1
fi
if [[ $crate == handset_c ]]; then
    mkdir -p target/staticlib
    cp -- crates/handset_c/out/libhandset_c.a "$archive"
else
    rm -rf -- target/rlib
    mkdir -p target/rlib
    for library in crates/*/out/rlib/*.rlib; do cp -r -- "$library" target/rlib/; done
fi
