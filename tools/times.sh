#!/usr/bin/env bash
# How long the proofs of commits take: times.sh COMMIT.. Of each it runs `rt all check` from nothing in a folder of its own, and prints the commit, seconds of processor (user and system), seconds on the clock, and rt's last line. Exits 1 where one is not proved.
# A commit proves only with the kit that it was written for. Processor time grows with what else runs on the machine, so that two figures compare only where nothing else did.
root=$(cd -- "$(dirname -- "${BASH_SOURCE[0]}")/.." && pwd)
[[ $# -gt 0 ]] || { echo "times.sh COMMIT.., such as times.sh 09b5951 c1b93e1" >&2; exit 2; }
folder=$(mktemp -d)
trap 'rm -rf -- "$folder"' EXIT
failed=0
TIMEFORMAT='%U %S %R'
for commit in "$@"; do
    rm -rf -- "$folder/tree"
    mkdir "$folder/tree"
    git -C "$root" archive "$commit" | tar -x -C "$folder/tree" || exit 2
    { time (cd -- "$folder/tree" && rt all check) >"$folder/said" 2>&1; } 2>"$folder/time" || failed=1
    read -r user system clock <"$folder/time"
    awk -v c="$commit" -v u="$user" -v s="$system" -v w="$clock" -v last="$(tail -1 "$folder/said")" \
        'BEGIN { printf "%s: %.0f s of processor, %.0f s on the clock; %s\n", c, u + s, w, last }'
done
exit "$failed"
