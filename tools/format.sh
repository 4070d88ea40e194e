#!/usr/bin/env bash
# The layout of the sources: format.sh [--write]. Rattle's by `rt fmt`, Rust's by `cargo fmt` (rustfmt.toml), C's by clang-format 14 (.clang-format; all
# but include/herbassolh.h, whose comments stand in columns by hand). It names the files that have another layout and exits 1; --write gives it to them.
# Rattle's is given alone: `rt ci` refuses a source that has another.
# A program that is not installed, or another version of clang-format, is told and passed over.
cd -- "$(dirname -- "${BASH_SOURCE[0]}")/.." || exit 2
[[ $# == 0 || $* == --write ]] || { echo "format.sh [--write]" >&2; exit 2; }
check=$((1 - $#))
failed=0 looked=""
c_files=(examples/*.c interface/*.c interface/tests/*.[ch] portable/board/*.c tools/*.c)

if ((!check)); then
    if command -v rt >/dev/null; then
        for crate in crates/*/; do (cd -- "$crate" && rt fmt >/dev/null) || failed=1; done
        looked="rt fmt"
    else echo "layout: rt is not installed; .rt and .antt were not looked at"; fi
fi

if cargo fmt --version >/dev/null 2>&1; then
    for folder in interface other_scorer; do
        if ((check)); then
            other=$(cargo fmt --manifest-path "$folder/Cargo.toml" --all -- --check -l) || failed=1
            [[ -z $other ]] || sed "s|^$PWD/||; s|\$|: another layout than cargo fmt's|" <<<"$other"
        else cargo fmt --manifest-path "$folder/Cargo.toml" --all || failed=1; fi
    done
    looked="$looked${looked:+, }cargo fmt"
else echo "layout: cargo fmt is not installed; Rust was not looked at"; fi

version=$(clang-format --version 2>/dev/null | sed -n 's/.*version \([0-9]*\).*/\1/p')
if [[ $version == 14 ]]; then
    for file in "${c_files[@]}"; do
        if ((check)); then
            clang-format --dry-run -Werror "$file" 2>/dev/null || { echo "$file: another layout than clang-format's"; failed=1; }
        else clang-format -i "$file" || failed=1; fi
    done
    looked="$looked${looked:+, }clang-format"
else echo "layout: clang-format 14 is not installed (${version:-none is}); C was not looked at"; fi

((failed)) && { ((check)) && echo "layout: bash tools/format.sh --write"; exit 1; }
echo "layout: that of ${looked:-nothing, for none of the three is installed}"
