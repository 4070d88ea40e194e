#!/usr/bin/env bash
# The portable C file on emulated microcontrollers: board.sh. Needs rt, python3, gcc and cargo; the cross compilers and the emulator it
# installs from Debian's packages where they are missing, as root, and says so.
# Cortex-M0+, Cortex-M4 and RV32, each by gcc and clang at two levels: every exported call, with records, logs, unfinished hands and damaged bytes of
# the other scorer's programs and fixed seeds, against the answers of the x86-64 archive, which stand in the image; interface/tests/ and
# examples/firmware.c there; the header's layout for 32 bits. Flash, stack (by the call graph, and painted) and instructions go into
# docs/COST.md, between its marks. Ends with a count and `0 differ`, or exits 1.
set -Eeuo pipefail
trap 'echo "board: failed" >&2; exit 1' ERR
here=$(cd -- "$(dirname -- "${BASH_SOURCE[0]}")" && pwd)
root=$(dirname -- "$here")
cd -- "$root"

# ---- what it needs
packages=(clang gcc-arm-none-eabi libnewlib-arm-none-eabi gcc-riscv64-unknown-elf picolibc-riscv64-unknown-elf qemu-system-arm qemu-system-misc)
missing=()
for package in "${packages[@]}"; do
    dpkg-query -W -f '${Status}' "$package" 2>/dev/null | grep -q '^install ok installed$' || missing+=("$package")
done
if ((${#missing[@]})); then
    echo "board: installs from Debian's packages: ${missing[*]}"
    apt-get update -qq
    DEBIAN_FRONTEND=noninteractive apt-get install -y -qq --no-install-recommends "${missing[@]}" >/dev/null
fi

# ---- the file, the cases and the archive's answers
bash tools/archive.sh
bash portable/make.sh
made=$root/target/portable/board
rm -rf -- "$made"
mkdir -p "$made"
cargo build --release --quiet --manifest-path other_scorer/Cargo.toml
other=other_scorer/target/release
"$other/claims" crates/vectors/stdin 6000 "$made/claims"
for seed in 1 2 3; do "$other/logs" "$seed" "$made/log$seed" >/dev/null; done
python3 -B portable/board/driver.py include/herbassolh.h >"$made/driver.h"
python3 -B portable/board/cases.py include/herbassolh.h crates/vectors/stdin "$made/claims" "$made" "$made"/log?
gcc -std=c99 -O2 -Wall -Wextra -Werror -I include -I "$made" portable/board/expect.c target/staticlib/libhandset.a -o "$made/expect"
parts=$(find "$made" -name 'cases*' | sort)
# shellcheck disable=SC2086
"$made/expect" $parts >"$made/counts"
python3 tools/layout.py >"$made/layout.c"

# ---- a build; its figures go into a file of its own
calls=$(awk '{print $1}' "$made/counts")
every=$(for call in $calls; do printf -- '-Wl,-u,%s ' "$call"; done)
strict="-std=c99 -Wall -Wextra -Werror -Wconversion -Wshadow -Wpedantic -ffreestanding -ffunction-sections -fdata-sections -I include"
silent="-Wl,--no-warn-rwx-segments -Wl,--no-warn-execstack"
quiet="-nographic -monitor none -serial none -semihosting-config enable=on,target=native"
size_of() { "$1" "$2" | awk 'NR == 2 {print $1}'; }

# image OBJECT PART LINK runs a part of the cases on the board
image() {
    $board -std=gnu99 -Os -Wall -Wextra -Werror -ffreestanding -ffunction-sections -I include -I "$made" -DCASES="\"$2\"" \
        -c portable/board/board.c -o "$made/board.o"
    $gcc "$made/board.o" "$1" $3 -o "$made/board.elf"
    timeout 600 $emulator $quiet -icount shift=3 -kernel "$made/board.elf" 2>&1
}

# build CHIP COMPILER LEVEL. Set around it: gcc, cc (the compiler of the file), board (that of board.c), specs, script, whole, sizes, emulator, and
# large (the emulator for the C tests and the example).
# shellcheck disable=SC2086,SC2154
build() {
    local at=$made/$1.$2.$3 graph=""
    [[ $2 != gcc ]] || graph="-fcallgraph-info=su -dumpdir $made/ -dumpbase $1.$2.$3"
    $cc $strict "$3" $graph -c target/portable/herbassolh.c -o "$at.o"
    $cc -std=c11 -ffreestanding -fsyntax-only -I include "$made/layout.c"
    local link="-nostartfiles $specs -T portable/board/$script -Wl,--gc-sections $silent"
    $gcc "$at.o" $link $every -Wl,-e,hb_score -o "$at.all" 2>/dev/null
    $gcc "$at.o" $link -Wl,-u,hb_score -Wl,-e,hb_score -o "$at.score" 2>/dev/null
    {
        echo "build $1 $2 $3 $($cc -dumpversion)"
        echo "flash $(size_of "$sizes" "$at.all") $(size_of "$sizes" "$at.score")"
        echo "ram $("$sizes" "$at.o" | awk 'NR == 2 {print $2 + $3}')"
        [[ $2 != gcc ]] || python3 portable/board/stack.py "$made/$1.$2.$3.ci" portable/board/depths.txt $calls | sed 's/^/stack /'
    } >"$at.figures"
    local part
    for part in $parts; do
        echo "part ${part##*cases}" >>"$at.figures"
        image "$at.o" "$part" "$link" >>"$at.figures"
    done
    local program
    for program in "interface/tests/*.c" examples/firmware.c; do
        $gcc -std=c99 -O1 -I include $program "$at.o" $whole $silent -o "$at.elf"
        timeout 600 $large $quiet -kernel "$at.elf" >"$made/said" 2>&1 || { cat -- "$made/said"; false; }
        [[ $program != examples/firmware.c ]] || diff -- "$made/said" examples/firmware.txt
        [[ $program == examples/firmware.c ]] || sed 's/^/test /' "$made/said" >>"$at.figures"
    done
    python3 -B portable/board/report.py --one "$made/counts" "$at.figures"
    # once: an answer that differs is told
    if [[ ! -f $made/wrong ]]; then
        cp -- "$made/cases0" "$made/wrong"
        { printf '\377\377\377\377' && tail -c +5 "$made/cases0.sums"; } >"$made/wrong.sums"
        [[ $(image "$at.o" "$made/wrong" "$link" | awk 'NF == 8 {n += $3} END {print n}') == 1 ]]
        echo "a wrong answer is told"
    fi
}

arm() {
    gcc="arm-none-eabi-gcc -mcpu=$2 -mthumb" sizes=arm-none-eabi-size script=arm.ld specs="--specs=nano.specs -Wl,--no-enum-size-warning"
    emulator="qemu-system-arm -M $3" large="qemu-system-arm -M mps2-an386"
    whole="portable/board/vectors.c --specs=rdimon.specs -T portable/board/whole.ld -Wl,--no-enum-size-warning"
    board=$gcc
    for level in -Os -O2; do cc=$gcc && build "$1" gcc "$level"; done
    for level in -Oz -O2; do cc="clang --target=arm-none-eabi -mcpu=$2 -mthumb" && build "$1" clang "$level"; done
}
arm Cortex-M0+ cortex-m0plus microbit
arm Cortex-M4 cortex-m4 mps2-an386

gcc="riscv64-unknown-elf-gcc -march=rv32imc -mabi=ilp32" sizes=riscv64-unknown-elf-size script=riscv.ld specs=--specs=picolibc.specs
board="riscv64-unknown-elf-gcc -march=rv32imc_zicsr -mabi=ilp32"
emulator="qemu-system-riscv32 -M virt -bios none" large=$emulator
whole="--specs=picolibc.specs --crt0=hosted --oslib=semihost -Wl,--defsym=__flash=0x80000000,--defsym=__flash_size=4M,--defsym=__ram=0x80400000"
whole="$whole,--defsym=__ram_size=4M,--defsym=__stack_size=64k"
for level in -Os -O2; do cc=$gcc && build RV32IMC gcc "$level"; done
for level in -Oz -O2; do cc="clang --target=riscv32-unknown-elf -march=rv32imc -mabi=ilp32" && build RV32IMC clang "$level"; done

qemu=$(qemu-system-arm --version | sed -n '1s/.*version \([0-9.]*\).*/\1/p')
python3 -B portable/board/report.py "$made/counts" "$qemu" target/portable/herbassolh.c "$made"/*.figures
