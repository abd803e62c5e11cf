#!/bin/sh
# Compares `erim run` with this processor: random programs and C programs, static and freestanding, run on Linux as they
# are, and write the same bytes and end with the same status under the emulated machine. Skipped where as, gcc or python3
# is missing, or the machine isn't x86-64 Linux. Usage: native.sh [PROGRAMS [LENGTH [SEED]]], by default 2000 of 50 steps.
here=$(cd "$(dirname "$0")" && pwd) || exit 1
if [ "$(uname -sm)" != "Linux x86_64" ]; then
    echo "skipped: this is no x86-64 Linux"
    exit 0
fi
for tool in as gcc python3; do
    if ! command -v "$tool" >/dev/null; then
        echo "skipped: $tool is missing"
        exit 0
    fi
done
work=$(mktemp -d) || exit 1
trap 'rm -rf "$work"' EXIT
"$here/../erim" >/dev/null # built by now
program=$here/../crates/erim_cli/out/erim_cli
mkdir "$work/random" "$work/compiled" || exit 1
python3 "$here/native.py" make "${3:-1}" "${1:-2000}" "${2:-50}" "$work/random" || exit 1
find "$work/random" -perm -u+x -type f | sort >"$work/names"
xargs python3 "$here/native.py" compare "$program" <"$work/names" || exit 1
for source in sort crc stack_machine; do
    for level in O0 O2 Os; do
        gcc -"$level" -ffreestanding -nostdlib -static -no-pie -mgeneral-regs-only -fno-stack-protector \
            -o "$work/compiled/$source.$level" "$here/programs/$source.c" || exit 1
    done
done
python3 "$here/native.py" compare "$program" "$work"/compiled/* || exit 1
