#!/usr/bin/env bash
# Pages and header against the tree: check.sh [PAPER..]. Runs claims.py, words.py, edits.py (every must-fail edit applies), lines.py (no meaning
# through a search), promises.py, refusals.py and quotes.py (with the papers, if given), clips.py, shown.py, declared.py, layout.py and
# format.sh, and compares `rt version` with the one that README names; ends with `pages: all agree` or exits 1. Proves nothing and takes a few seconds.
tools=$(cd -- "$(dirname -- "${BASH_SOURCE[0]}")" && pwd)
failed=0
made=$(mktemp -d)
trap 'rm -rf -- "$made"' EXIT
python3 "$tools/claims.py" || failed=1
python3 "$tools/words.py" || failed=1
python3 "$tools/edits.py" || failed=1
python3 "$tools/lines.py" >"$made/lines" || { tail -5 "$made/lines"; failed=1; }
python3 "$tools/promises.py" || failed=1
python3 "$tools/refusals.py" "$@" || failed=1
[[ $# == 0 ]] || python3 "$tools/quotes.py" "$@" || failed=1
python3 "$tools/clips.py" || failed=1
python3 "$tools/shown.py" || failed=1
python3 "$tools/declared.py" || failed=1
python3 "$tools/layout.py" >"$made/layout.c" || failed=1
for bits in 64 32; do
    gcc "-m$bits" -std=c11 -ffreestanding -Wall -Wextra -Werror -I "$tools/../include" -fsyntax-only "$made/layout.c" || failed=1
done
bash "$tools/format.sh" || failed=1
wanted=$(sed -n 's/.*`rt version` prints `\([^`]*\)`.*/\1/p' "$tools/../README.md")
if ! command -v rt >/dev/null; then echo "rt: not installed, so its version was not compared with \"$wanted\""
elif [[ $(rt version) == "$wanted" ]]; then echo "rt version: $wanted"
else echo "rt version: $(rt version); README.md names \"$wanted\"" && failed=1; fi
[[ $failed == 0 ]] && echo "header: $(grep -c _Static_assert "$made/layout.c") assertions on its structs, for 64 and 32 bits, $(grep -c '^[A-Za-z].* hb_' "$made/layout.c") calls declared again"
[[ $failed == 0 ]] && echo "pages: all agree" || exit 1
