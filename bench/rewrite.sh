#!/bin/sh
# Rewrites programs that hide unsafe sequences, and runs the old and the new image on this processor and the new one on
# the machine: random programs, and examples/overlaps.c at three levels. They have to write the same bytes and end with
# the same status. Then times `erim rewrite` on images of 1, 2 and 4 MiB with 0 to 4,000 sites: the seconds and the
# greatest memory in KiB, three times each. Usage: rewrite.sh [PROGRAMS [LENGTH [SEED]]], by default 500 of 60
# instructions. What needs Linux on x86-64, python3 or cc is skipped where it is missing.
here=$(cd "$(dirname "$0")" && pwd) || exit 1
if ! command -v python3 >/dev/null; then
    echo "skipped: python3 is missing"
    exit 0
fi
work=$(mktemp -d) || exit 1
trap 'rm -rf "$work"' EXIT
"$here/../erim" >/dev/null 2>&1 # built by now
program=$here/../crates/erim_cli/out/erim_cli
if [ "$(uname -sm)" = "Linux x86_64" ]; then
    mkdir "$work/random" || exit 1
    python3 "$here/rewrite.py" make "${3:-1}" "${1:-500}" "${2:-60}" "$work/random" || exit 1
    find "$work/random" -type f | sort | xargs python3 "$here/rewrite.py" compare "$program" || exit 1
    if command -v "${CC:-cc}" >/dev/null; then
        for level in -O0 -O2 -Os; do
            LEVEL=$level "$here/../examples/build.sh" "$work/examples$level" "$here/../examples/overlaps.c" || exit 1
        done
        python3 "$here/rewrite.py" compare "$program" "$work"/examples*/overlaps.img || exit 1
    fi
fi
for row in "1 1000" "2 1000" "4 0" "4 250" "4 1000" "4 4000"; do
    python3 "$here/rewrite.py" sites ${row% *} ${row#* } "$work/image" || exit 1
    for round in 1 2 3; do
        /usr/bin/time -f '%e %M' -o "$work/time" "$program" rewrite "$work/image" "$work/new" >"$work/out"
        printf '%s MiB: %s: %s seconds/KiB\n' "${row% *}" "$(cat "$work/out")" "$(tail -n 1 "$work/time")"
    done
done
