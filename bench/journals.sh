#!/bin/sh
# Times `erim soak` of seed 7999, which is 8 threads of 1,000 rounds, `run` of that image, and `replay` of both journals;
# `run` and `replay` of a loop for 4,000,000 steps, xor eax, eax; je back; and `replay` of journals of one, two and four
# million entries that break at their fifth step, so that reading them is all that takes time.
# Prints the steps or the entries, the seconds and the greatest memory in KiB, each three times.
here=$(cd "$(dirname "$0")" && pwd) || exit 1
work=$(mktemp -d) || exit 1
trap 'rm -rf "$work"' EXIT
"$here/../erim" >/dev/null 2>&1 # built by now

# timed WHAT WORD..: the call with these words, three times
timed() {
    what=$1
    shift
    for round in 1 2 3; do
        /usr/bin/time -f '%e %M' -o "$work/time" "$here/../erim" "$@" >"$work/out"
        printf '%s: %s: %s seconds/KiB\n' "$what" "$(grep -a '^steps\|^erim' "$work/out" | head -n 1)" \
            "$(tail -n 1 "$work/time")"
    done
}

"$here/../erim" gen 7999 "$work/made" >/dev/null
timed 'soak 7999' soak 7999 "$work/soaked"
timed 'run of its image' run "$work/made" "$work/ran"
timed 'replay of what soak saved' replay "$work/made" "$work/soaked"
timed 'replay of what run saved' replay "$work/made" "$work/ran"
python3 -c 'import sys; sys.stdout.buffer.write(b"\x31\xc0\x74\xfc")' |
    python3 "$here/lay_image.py" "$work/loop" 4096 0
timed 'run of a loop' run "$work/loop" "$work/long" --steps 4000000
timed 'replay of it' replay "$work/loop" "$work/long"
for entries in 1048576 2097152 4194304; do
    python3 -c "
import struct, sys
entry = struct.pack('<HHI', 0, 0, 1)
sys.stdout.buffer.write(b'ERIMJNL1' + struct.pack('<III', 4194304, 1024, $entries) + entry * 4)
sys.stdout.buffer.write(struct.pack('<HHI', 0, 1, 1) + entry * ($entries - 5))" >"$work/broken"
    timed "$entries entries" replay "$work/loop" "$work/broken"
done
