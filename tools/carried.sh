#!/usr/bin/env bash
# Mistakes carried through definition and laws: carried.sh [NAME ..]. Applies each tools/carried/NAME.patch (all of them where none is named) to a copy
# of the tree and runs `rt check` in game_rules there: `position` and `game` must be proved, and `game_rules` refused at the law that the patch says.
# One line a patch, then how many there are; exits 1 where one is not refused so. Each proves `position` and `game` again.
tools=$(cd -- "$(dirname -- "${BASH_SOURCE[0]}")" && pwd)
copy=$(mktemp -d)
trap 'rm -rf -- "$copy"' EXIT
cd -- "$copy" || exit
(cd -- "$tools/.." && tar -c --exclude=out crates crates.txt) | tar -x || exit

# says what came of the patch $1; what git and rt print stands in the file said
try() {
    local law status
    : >said
    [[ -f $1 ]] || { echo "no such patch"; return 1; }
    law=$(sed -n '/^diff /q; s/^falls: //p' "$1")
    [[ -n $law ]] || { echo "names no law"; return 1; }
    git apply -- "$1" 2>said || { echo "does not apply"; return 1; }
    (cd crates/game_rules && rt check) >said 2>&1
    status=$?
    git apply -R -- "$1"
    [[ $status != 0 ]] || { echo "NOT REFUSED"; return 1; }
    ! grep -q 'did not build' said || { echo "$(sed -n 's/.*the library \([a-z_]*\) did not build.*/\1/p' said | head -1) IS NOT PROVED"; return 1; }
    # an error that only says that a law before this one is missing does not count
    grep "^\./.*error: \`$law\`:" said | grep -qv 'was not admitted' || { echo "NOT REFUSED at $law"; return 1; }
    echo "refused at $law"
}

names=("$@")
[[ $# -gt 0 ]] || mapfile -t names < <(basename -s .patch -- "$tools"/carried/*.patch)
failed=0
for name in "${names[@]}"; do
    result=$(try "$tools/carried/$name.patch") && wrong='' || wrong=yes
    echo "$name: $result"
    [[ -z $wrong ]] || { failed=$((failed + 1)); grep 'error: ' said | grep -v 'was not admitted' | cut -c1-200; }
done
echo "${#names[@]} mistakes carried, $failed not refused"
[[ $failed == 0 ]]
