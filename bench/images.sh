#!/bin/sh
# Times `erim inspect` and `erim disasm` on images of 2, 4 and 8 MiB: zeros, `0F 01 EF` over and over, random bytes.
# Prints for each the seconds, the greatest memory in KiB and the bytes of output. Then 100 runs of `erim inspect` on an
# image of 64 headers, 4,096 functions and 256 records, and on the same bytes with one header.
here=$(cd "$(dirname "$0")" && pwd) || exit 1
work=$(mktemp -d) || exit 1
trap 'rm -rf "$work"' EXIT
"$here/../erim" >/dev/null # built by now
for mib in 2 4 8; do
    size=$((mib * 1048576 - 4096)) # with its headers the file has exactly that many MiB
    : | python3 "$here/lay_image.py" "$work/zeros" $size
    python3 -c "import sys; sys.stdout.buffer.write((b'\x0f\x01\xef' * ($size // 3 + 1))[:$size])" |
        python3 "$here/lay_image.py" "$work/wrpkru" $size
    head -c $size /dev/urandom | python3 "$here/lay_image.py" "$work/random" $size
    for command in inspect disasm; do
        for kind in zeros wrpkru random; do
            /usr/bin/time -f '%e %M' -o "$work/time" "$here/../erim" $command "$work/$kind" >"$work/out"
            printf '%s %s MiB %s: %s seconds/KiB, %s bytes printed\n' $command "$mib" "$kind" "$(tail -n 1 "$work/time")" "$(wc -c <"$work/out")"
        done
    done
done
for count in 64 1; do
    python3 "$here/lay_notes.py" "$work/notes" $count
    /usr/bin/time -f '%e' -o "$work/time" sh -c 'for round in $(seq 100); do "$1" inspect "$2"; done' - \
        "$here/../crates/erim_cli/out/erim_cli" "$work/notes" >"$work/out"
    printf 'inspect with %s headers, 100 times: %s seconds\n' "$count" "$(tail -n 1 "$work/time")"
done
