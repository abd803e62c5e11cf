#!/bin/sh
# Times `erim run` by one worker on three loops without end, each of which makes all the 1,000,000
# steps of a run: xor eax, eax; je back. images/crc.img, which is programs/crc.c by gcc -O2 with
# 1,000,000 rounds. A loop that reads and writes another page of a megabyte each time. Then on
# images that end: 500 pages that are jumped through, each of which is published. 10,000 rounds of
# mapping a page, writing it and unmapping it, with 1,000 pages mapped. 10,000 rounds of writing a
# page and executing it. The first loop by 16 threads in turn. And images/heap.img, which is programs/heap.c:
# 1,500 blocks of the trusted heap taken and given back, up to 1,000 at a time.
# Prints the steps, the seconds, the greatest memory in KiB and the bytes of the journal; and the
# steps a second that Unicorn makes of the same loops, where its library is installed.
here=$(cd "$(dirname "$0")" && pwd) || exit 1
work=$(mktemp -d) || exit 1
trap 'rm -rf "$work"' EXIT
"$here/../erim" >/dev/null # built by now

# lay NAME SIZE DATA CODE: the code as Python writes it
lay() {
    python3 -c "import sys; sys.stdout.buffer.write($4)" | python3 "$here/lay_image.py" "$work/$1" "$2" "$3"
}
lay loop 4096 0 'b"\x31\xc0\x74\xfc"'
cp "$here/images/crc.img" "$work/crc"
lay memory 4096 1048576 \
    'bytes.fromhex("31c9 488b8100000001 4801c8 48898100000001 81c108100000 81e1f8ff0f00 ebe1")'
lay pages 2048000 0 \
    'bytes.fromhex("e9fb0f0000").ljust(4096, b"\0") * 499 + bytes.fromhex("bf00000000 b8e7000000 0f05")'
lay mapping 4096 0 \
    'bytes.fromhex("31ff be00703d00 ba03000000 41ba22000000 b809000000 0f05 bb10270000 31ff be00100000 b809000000 0f05")'\
'+ bytes.fromhex("488918 4889c7 b80b000000 0f05 ffcb 75e1 4889c7 b8e7000000 0f05")'
lay writing 4096 0 \
    'bytes.fromhex("31ff be00100000 ba07000000 41ba22000000 b809000000 0f05 bb10270000")'\
'+ bytes.fromhex("c600c3 ffd0 ffcb 75f7 31ff b8e7000000 0f05")'
lay threads 4096 0 \
    'bytes.fromhex("bb0f000000 bf000f0500 31f6 b838000000 0f05 85c0 7404 ffcb 75ea 31c0 74fc")'
cp "$here/images/heap.img" "$work/heap"

unicorn=
if cc -O2 -o "$work/unicorn" "$here/unicorn.c" -lunicorn 2>/dev/null; then
    unicorn=$work/unicorn
else
    echo "skipped: Unicorn, whose library isn't there"
fi
for image in loop crc memory pages mapping writing threads heap; do
    for round in 1 2 3; do
        /usr/bin/time -f '%e %M' -o "$work/time" \
            "$here/../erim" run "$work/$image" "$work/journal" --workers 1 >"$work/out"
        printf '%s: %s: %s seconds/KiB, %s bytes saved\n' "$image" "$(grep steps "$work/out" | head -n 1)" \
            "$(tail -n 1 "$work/time")" "$(wc -c <"$work/journal")"
    done
    case $image in loop | crc | memory) unicorn_too=$unicorn ;; *) unicorn_too= ;; esac
    if [ -n "$unicorn_too" ]; then
        "$unicorn_too" "$work/$image" 1000000
    fi
done
