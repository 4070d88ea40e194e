#!/usr/bin/env bash
# Tests the desk handset in a real browser: test.sh. Installs chromium, its driver and fonts with apt-get where they are missing, builds the
# tool, presses keys, compares what the page shows with what the tool says, and keeps a picture of each view under target/desk/.
# Ends with `desk: N checks passed`, or exits 1.
set -euo pipefail
here=$(cd -- "$(dirname -- "${BASH_SOURCE[0]}")" && pwd)
root=$(dirname -- "$here")

missing=()
command -v chromium >/dev/null || missing+=(chromium)
command -v chromedriver >/dev/null || missing+=(chromium-driver)
command -v espeak-ng >/dev/null || missing+=(espeak-ng)
[[ -d /usr/share/fonts/opentype/noto && -n $(find /usr/share/fonts/opentype/noto -name 'NotoSansCJK*' -print -quit) ]] || missing+=(fonts-noto-cjk)
if [[ ${#missing[@]} -gt 0 ]]; then
    sudo=()
    [[ $(id -u) -eq 0 ]] || sudo=(sudo)
    "${sudo[@]}" apt-get update -qq
    DEBIAN_FRONTEND=noninteractive "${sudo[@]}" apt-get install -y -qq --no-install-recommends "${missing[@]}" >/dev/null
fi

bash "$root/interface/build.sh"
mkdir -p "$root/target/desk"

# A tool over a wrong archive, as interface/run.sh has it, to see that the page says so.
made=$(mktemp -d)
trap 'rm -rf -- "$made"' EXIT
archive=${HANDSET_LIB:-$root/target/staticlib}/libhandset.a
gcc -std=c99 -I "$root/include" -c "$root/interface/wrong.c" -o "$made/wrong.o"
objcopy --redefine-sym hb_score=right_score --redefine-sym hb_reading=right_reading "$archive" "$made/libhandset.a"
ar r "$made/libhandset.a" "$made/wrong.o" 2>/dev/null
HANDSET_LIB=$made cargo build --quiet --manifest-path "$root/interface/Cargo.toml" --package tester --target-dir "$root/target/desk/wrong"

python3 "$here/test" "$root" "$root/interface/target/release/tester" "$root/target/desk/wrong/debug/tester" "$root/target/desk"
