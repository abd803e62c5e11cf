#!/bin/sh
# Times `erim run` with 1, 2, 4 and 8 workers on a program of 8 threads, each of which goes round a
# loop of two instructions without end, until the 1,000,000 steps of a run are made; and on the same
# image serial_run.txt, a program without workers. It is built in a copy of the repository, which
# takes minutes. Prints the seconds of each of seven rounds and the greatest memory in KiB.
here=$(cd "$(dirname "$0")" && pwd) || exit 1
work=$(mktemp -d) || exit 1
trap 'rm -rf "$work"' EXIT
"$here/../erim" >/dev/null # built by now

mkdir "$work/copy" || exit 1
(cd "$here/.." && git ls-files -z crates crates.txt HANDLES | xargs -0 tar c) |
    tar x -C "$work/copy" || exit 1
crate=$work/copy/crates/serial_run
mkdir -p "$crate/src" && cp "$here/serial_run.txt" "$crate/src/main.rt" || exit 1
echo 'serial_run: erim_defs erim_io elf_image erim_process thread_runner' >>"$work/copy/crates.txt"

python3 -c 'import sys; sys.stdout.buffer.write(bytes.fromhex(
    "bb07000000 bf000f0500 31f6 b838000000 0f05 85c0 7404 ffcb 75ea 31c0 74fc"))' |
    python3 "$here/lay_image.py" "$work/image" 4096
processors=$(getconf _NPROCESSORS_ONLN)
(cd "$crate" && rt all check --jobs "$processors" && rt run -- "$work/image") >"$work/log" 2>&1 ||
    { cat "$work/log"; exit 1; }

# time_rounds NAME COMMAND..
time_rounds() {
    name=$1
    shift
    for round in 1 2 3 4 5 6 7; do
        /usr/bin/time -f '%e s of %U and %S, %M KiB' -o "$work/time" "$@" >"$work/out"
        printf '%s: %s: %s\n' "$name" "$(grep steps "$work/out" | head -n 1)" \
            "$(tail -n 1 "$work/time")"
    done
}
time_rounds 'without workers' "$crate/out/serial_run" "$work/image"
for workers in 1 2 4 8; do
    time_rounds "workers $workers" \
        "$here/../erim" run "$work/image" "$work/journal" --workers "$workers"
done
