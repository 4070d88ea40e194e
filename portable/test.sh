#!/usr/bin/env bash
# Tests the portable C file on this machine: test.sh [COUNT]. Needs rt, python3, gcc, clang and cargo.
# 1. make.sh twice gives the same file, its digest is the MIR's, and its symbols are the header's calls;
# 2. the generator's own tests: unknown forms, functions that the code does not have, a crate of generic forms against rustc, wrong generators;
# 3. gcc and clang at four levels without a warning, and interface/tests/ over each;
# 4. these tests and the comparison with the other scorer (COUNT hands, default 100000) under the sanitizers: the file of each compiler, and the
#    file that aborts where the MIR is undefined with clang's checks of conversions and unsigned sums; first a fault that they have to find;
# 5. interface/run.sh with COUNT hands and the file in the archive's place.
# Ends with a count and `0 differ`, or exits 1.
set -Eeuo pipefail
trap 'echo "portable: failed" >&2; exit 1' ERR
count=${1:-100000}
here=$(cd -- "$(dirname -- "${BASH_SOURCE[0]}")" && pwd)
root=$(dirname -- "$here")
kit=$(dirname -- "$(dirname -- "$(readlink -f -- "$(command -v rt)")")")
rlibs=("$root/target/rlib" "$kit/rlibs")
made=$root/target/portable
file=$made/herbassolh.c
builds=0 checks=0 comparisons=0
cd -- "$root"

# ---- 1. the file
bash portable/make.sh
cp -- "$file" "$made/first.c"
(cd / && PYTHONHASHSEED=7 bash "$here/make.sh" >/dev/null)
cmp -- "$file" "$made/first.c"
rm -- "$made/first.c"
bash portable/make.sh --checked
libraries=$(sed -n '/one after the other:/,/^ \* Kit:/p' "$file" | grep '^ \*   ' | tr -d '*' | sed 's/.*one after the other://')
for library in $libraries; do
    for folder in "${rlibs[@]}"; do
        [[ ! -f $folder/$library.rlib/toolchain/mir.json ]] || cat -- "$folder/$library.rlib/toolchain/mir.json"
    done
done | sha256sum | cut -d' ' -f1 >"$made/digest"
grep -qF "SHA-256 $(cat "$made/digest")" "$file"
echo "the same file twice; SHA-256 of the MIR of $(wc -w <<<"$libraries") libraries $(cat "$made/digest")"

# ---- 2. the generator
python3 -B portable/tests/unknown.py handset "${rlibs[@]}" | tail -1
python3 -B portable/tests/small.py portable/generator
python3 -B portable/tests/forms.py build "$made/forms"
python3 -B portable/tests/forms.py check "$made/forms" portable/generator "$kit/rlibs"
python3 -B portable/tests/mutants.py handset "$made/forms" "${rlibs[@]}" | tail -1

# ---- 3. compilers
strict=(-std=c99 -Wall -Wextra -Werror -Wconversion -Wshadow -Wpedantic -ffreestanding -I include)
tested() {
    "$made/test" >"$made/said" || { cat -- "$made/said"; false; }
    checks=$((checks + $(sed -n 's/^\([0-9]*\) checks, 0 failed$/\1/p' "$made/said")))
    builds=$((builds + 1))
    echo "$1: $(cat -- "$made/said")"
}
calls=$(grep -oE '\bhb_[a-z_]+\(' include/herbassolh.h | tr -d '(' | sort -u)
rm -f -- "$made/outside"
for compiler in gcc clang; do
    for level in -O0 -Os -O2 -O3; do
        "$compiler" "${strict[@]}" "$level" -c "$file" -o "$made/h.o"
        "$compiler" -std=c99 -I include interface/tests/*.c "$made/h.o" -o "$made/test"
        tested "$compiler $level"
        diff <(nm -g --defined-only "$made/h.o" | awk '{print $3}' | sort) - <<<"$calls"
        nm -g --undefined-only "$made/h.o" | awk '{print $2}' >>"$made/outside"
    done
done
outside=$(sort -u "$made/outside" | tr '\n' ' ')
if grep -qvxE 'memcpy|memset|memmove|memcmp' "$made/outside"; then false; fi
echo "symbols: the header's $(wc -w <<<"$calls") calls, and from outside at most $outside"

# ---- 4. sanitizers; `sanitized NAME COMPILER FILE CHECKS` builds the C tests and the comparison over a file
sanitized() {
    local at=$made/$1 flags="-fsanitize=$4 -fno-sanitize-recover=all"
    mkdir -p "$at"
    # shellcheck disable=SC2086
    "$2" -std=c99 -O1 -g $flags -I include -c "$3" -o "$at/h.o"
    rm -f -- "$at/libhandset.a"
    ar rcs "$at/libhandset.a" "$at/h.o"
    # shellcheck disable=SC2086
    "$2" -std=c99 -g $flags -I include interface/tests/*.c "$at/libhandset.a" -o "$made/test"
    # cargo links without the compiler's own libraries; gcc's are named, and have to be loaded first
    local with=(-Clinker="$2" -Clink-arg=-fsanitize=address,undefined)
    [[ $2 == clang ]] || with+=(-Clink-arg=-Wl,--no-as-needed,-lasan,-lubsan)
    HANDSET_LIB=$at cargo rustc --release --quiet --manifest-path interface/Cargo.toml --package compare --bin compare \
        --target-dir "$made/sanitized" -- "${with[@]}"
    compare=("$made/sanitized/release/compare")
    [[ $2 == clang ]] || compare=(env LD_PRELOAD="$(gcc -print-file-name=libasan.so)" "${compare[@]}")
}
compared() {
    "${compare[@]}" "$count" 1 >"$made/said"
    [[ $(tail -1 "$made/said") == "0 differ" ]]
    comparisons=$((comparisons + 1))
    echo "$1, comparison: $count hands, $(tail -1 "$made/said")"
}
# a call that looks one byte past what was lent has to be found, by the C tests and by the comparison
sed -E '/^HbReadHand hb_read\(/{N;s/\*(\w+), size_t (\w+)\)\n\{/&\n    if (((const volatile uint8_t *)\1)[\2]) \2 += 0;/}' "$file" >"$made/planted.c"
if cmp -s "$file" "$made/planted.c"; then false; fi
for compiler in gcc clang; do
    sanitized planted "$compiler" "$made/planted.c" address,undefined
    if "$made/test" >/dev/null 2>"$made/said"; then false; fi
    grep -q heap-buffer-overflow "$made/said"
    if "${compare[@]}" 100 1 >/dev/null 2>"$made/said"; then false; fi
    grep -q AddressSanitizer "$made/said"
    echo "$compiler's sanitizers find a byte read past what was lent"
    sanitized plain "$compiler" "$file" address,undefined
    tested "$compiler, address and undefined"
    compared "$compiler, address and undefined"
done
sanitized checked clang "$made/checked.c" address,undefined,implicit-conversion,unsigned-integer-overflow
tested "MIR's conditions, conversions and unsigned sums"
compared "MIR's conditions, conversions and unsigned sums"

# ---- 5. the file in the archive's place
gcc -std=c99 -O2 -I include -c "$file" -o "$made/h.o"
rm -f -- "$made/libhandset.a"
ar rcs "$made/libhandset.a" "$made/h.o"
HANDSET_LIB=$made bash interface/run.sh "$count" >"$made/said"
grep -q '^0 differ$' "$made/said"
tail -1 "$made/said"
comparisons=$((comparisons + 1))
echo "portable: $builds builds with $checks checks, $comparisons comparisons of $count hands; 0 differ"
