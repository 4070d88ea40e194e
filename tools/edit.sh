#!/usr/bin/env bash
# Tries must-fail edits: edit.sh CRATE NAME.., for crates/CRATE/must-fail/NAME.edit; edit.sh CRATE alone tries all of the crate's. In a copy of the
# crate and of those that it depends on, with these edits alone, it runs `rt must-fail CRATE`, which proves the crate (what is kept in out/ is not
# proved again), makes each edit in a copy of the crate and expects that the prover refuses it.
# Shows the edits, then what rt says; exits 1 where one is not refused.
tools=$(cd -- "$(dirname -- "${BASH_SOURCE[0]}")" && pwd)
root=$(dirname -- "$tools")
folder=$root/crates/$1/must-fail
edits=()
for name in "${@:2}"; do edits+=("$folder/$name.edit"); done
[[ $# != 1 ]] || mapfile -t edits < <(find "$folder" -name '*.edit' 2>/dev/null | sort)
[[ ${#edits[@]} != 0 ]] || { echo "edit.sh CRATE [NAME..]: edits of crates/CRATE/must-fail/, such as edit.sh bits bits_reversed" >&2; exit 2; }
copy=$(mktemp -d)
trap 'rm -rf -- "$copy"' EXIT
mkdir "$copy/crates"
# the crate and those below it: in crates.txt each stands below those that it uses
tac "$root/crates.txt" | awk -F: -v crate="$1" '{ split($1, name, " "); if (name[1] == crate) needed[crate] = 1
    if (name[1] in needed) { print; split($2, uses, " "); for (i in uses) needed[uses[i]] = 1 } }' | tac >"$copy/crates.txt"
while read -r name; do
    cp -a --reflink=auto -- "$root/crates/$name" "$copy/crates/" || exit
done < <(sed 's/[ :].*//' "$copy/crates.txt")
find "$copy/crates" -name '*.edit' -delete
mkdir -p "$copy/crates/$1/must-fail"
for edit in "${edits[@]}"; do
    [[ -f $edit ]] || { echo "edit.sh: no ${edit#"$root"/}" >&2; exit 2; }
    cp -- "$edit" "$copy/crates/$1/must-fail/"
    cat -- "$edit"
done
cd -- "$copy" && rt must-fail "$1" 2>&1 | tee said
[[ $(grep -c 'refused, as it must be' said) == "${#edits[@]}" ]]
