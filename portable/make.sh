#!/usr/bin/env bash
# Writes the calls of include/herbassolh.h as one C99 file, target/portable/herbassolh.c: make.sh [--checked]
# Needs rt and python3. tools/archive.sh --mir proves what has changed since it was last proved, and sees to the MIR of every library.
# --checked: target/portable/checked.c, which aborts where an operation of the MIR is undefined; for test.sh.
set -euo pipefail
here=$(cd -- "$(dirname -- "${BASH_SOURCE[0]}")" && pwd)
root=$(dirname -- "$here")
kit=$(dirname -- "$(dirname -- "$(readlink -f -- "$(command -v rt)")")")
name=herbassolh options=()
[[ ${1:-} == --checked ]] && name=checked options=(--checked)
out=$root/target/portable/$name.c

bash "$root/tools/archive.sh" --mir
mkdir -p "$root/target/portable"
python3 -B "$here/generator/generate.py" "${options[@]}" handset herbassolh.h "$(rt version)" "$root/target/rlib" "$kit/rlibs" >"$out.new"
mv -- "$out.new" "$out"
echo "$out: $(wc -l <"$out") lines, $(sed -n '/^ \* Calls:/,/^ \*\//p' "$out" | grep -ow 'hb_[a-z_]*' | wc -l) calls"
