#!/bin/sh
# Builds the examples anew at -O0, -O2 and -Os, runs each, and looks for its output, its end and
# what `inspect` says. Skipped where the compiler (CC, by default cc) or ld is missing.
here=$(cd "$(dirname "$0")" && pwd) || exit 1
for tool in "${CC:-cc}" ld objdump python3; do
    if ! command -v "$tool" >/dev/null; then
        echo "skipped: $tool is missing"
        exit 0
    fi
done
work=$(mktemp -d) || exit 1
trap 'rm -rf "$work"' EXIT
erim=$here/../erim
"$erim" >/dev/null # built by now
failed=0

# expect NAME END UNSAFE TEXT: the image runs to an end that begins so, writes this text, makes no
# escape, and has this number of unsafe sequences
expect() {
    "$erim" run "$folder/$1.img" "$work/journal" >"$work/report"
    printf '%b' "$4" >"$work/text"
    head -c "$(wc -c <"$work/text")" "$work/report" >"$work/head"
    if ! cmp -s "$work/text" "$work/head" || ! grep -q "^end $2" "$work/report" ||
        ! grep -q '^escape none$' "$work/report" ||
        [ "$("$erim" inspect "$folder/$1.img" | tail -n 1)" != "unsafe $3" ]; then
        echo "not as expected: $folder/$1.img"
        failed=1
    fi
}

for level in stored -O0 -O2 -Os; do
    folder=$work/$level
    if [ "$level" = stored ]; then
        folder=$here/../crates/command_rows/data
    else
        LEVEL=$level "$here/../examples/build.sh" "$folder" || exit 1
    fi
    expect vault 'exit 0' 0 'output 27\nsignature 8ba44d954fc27494\n\n'
    expect attacker 'fault key' 0 'output 31\nsignature 48a6f656ba234331\nkey \n'
    expect hidden 'refused page 0x000000401000 wrpkru' 1 'output 0\n\n'
    expect overlaps 'refused page' 3 'output 0\n\n'
    expect counters 'exit 0' 0 'output 25\ncounted 00000000000007d0\n\n'
    expect jit 'exit 0' 0 'output 37\n1,000 formulas, sum 0000000039531068\n\n'
    expect sort 'exit 0' 0 'output 51\n0000000000000000\n00000000000007f6\n0000000000000fff\n\n'
    expect keys 'exit 0' 0 'output 153\n10 alice\nsignature f38d04e6b475e729\n250 bob\n'\
'signature 1102d1c341f9e446\nall eve\nrefused\n7 carol; 9 eve\nrefused\n'\
'good 0000000000000002\nbad 0000000000000002\n\n'
    expect keys_attacker 'fault key' 0 'output 31\nsignature 980344ea3cb55ee4\nkey \n'
    expect log 'fault key' 0 'output 71\n01 alice came\n02 bob came\n03 alice paid 10 to bob\n'\
'sum 00000000359c1170\n\n'
done
exit $failed
