#!/bin/sh
# Compares the lengths of instructions with those of binutils' objdump: random bytes go through `erim disasm`, and each
# instruction that it reads, put by itself among NOPs, has to be as long for objdump; so has each canonical spelling that
# `instruction_rows` prints. Skipped where objdump is missing. Prints how many were compared; ends with 1 at the first
# disagreement.
here=$(cd "$(dirname "$0")" && pwd) || exit 1
if ! command -v objdump >/dev/null; then
    echo "skipped: objdump is missing"
    exit 0
fi
work=$(mktemp -d) || exit 1
trap 'rm -rf "$work"' EXIT
"$here/../erim" >/dev/null # built by now
size=1048576
for seed in 1 2 3; do
    python3 "$here/lengths.py" bytes "$seed" "$size" >"$work/code" || exit 1
    python3 "$here/lay_image.py" "$work/image" "$size" <"$work/code" || exit 1
    "$here/../erim" disasm "$work/image" >"$work/lines" || exit 1
    python3 "$here/lengths.py" slots "$work/code" "$work/lines" "$work/slots" "$work/lengths" || exit 1
    objdump -D -b binary -m i386:x86-64 --insn-width=16 "$work/slots" >"$work/objdump" || exit 1
    python3 "$here/lengths.py" compare "$work/objdump" "$work/lengths" || exit 1
done
(cd "$here/../crates/instruction_rows" && rt try -- spellings) | sed -n 's/^.*spelling //p' >"$work/spellings"
python3 "$here/lengths.py" spellings "$work/spellings" "$work/slots" "$work/lengths" || exit 1
objdump -D -b binary -m i386:x86-64 --insn-width=16 "$work/slots" >"$work/objdump" || exit 1
python3 "$here/lengths.py" compare "$work/objdump" "$work/lengths" || exit 1
