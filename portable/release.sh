#!/usr/bin/env bash
# The folder for firmware, target/release/: the C file, the header, the digest of the MIR, the claims, the sheet of clips where there is one, the sizes,
# and SHA256SUMS of all. The sizes are those that board.sh has put into docs/COST.md, of the same MIR.
# It is made twice, the second time elsewhere and otherwise, and has to have the same bytes. Ends with the sum of SHA256SUMS, or exits 1.
set -Eeuo pipefail
trap 'echo "release: failed" >&2; exit 1' ERR
here=$(cd -- "$(dirname -- "${BASH_SOURCE[0]}")" && pwd)
root=$(dirname -- "$here")
made=$root/target/portable

# folder DIR makes it there
folder() {
    rm -rf -- "$1"
    mkdir -p -- "$1"
    bash "$here/make.sh" >/dev/null
    cp -- "$made/herbassolh.c" "$root/include/herbassolh.h" "$root/docs/CLAIMS.md" "$1"
    [[ ! -f $root/docs/CLIPS.md ]] || cp -- "$root/docs/CLIPS.md" "$1"
    sed -n 's/^ \* MIR: SHA-256 //p' "$1/herbassolh.c" >"$1/DIGEST"
    sed -n '/^<!-- portable\/board.sh: begin -->$/,/^<!-- portable\/board.sh: end -->$/p' "$root/docs/COST.md" | sed '1d;$d' >"$1/SIZES.md"
    if ! grep -qF "$(cat "$1/DIGEST")" "$1/SIZES.md"; then
        echo "release: docs/COST.md has no sizes of this MIR: run portable/board.sh" >&2
        false
    fi
    (cd -- "$1" && LC_ALL=C && sha256sum -- *) >"$made/sums"
    mv -- "$made/sums" "$1/SHA256SUMS"
}

folder "$root/target/release"
again=$(mktemp -d)
trap 'rm -rf -- "$again"' EXIT
(cd / && umask 077 && export PYTHONHASHSEED=7 TZ=Asia/Seoul LC_ALL=C && folder "$again/release")
diff -r -- "$root/target/release" "$again/release"
(cd -- "$root/target/release" && sha256sum --quiet -c SHA256SUMS && wc -c -- *)
echo "release: the same bytes twice, $(sha256sum <"$root/target/release/SHA256SUMS" | cut -d' ' -f1)"
