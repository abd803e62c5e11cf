#!/bin/sh
# Runs programs by 8 workers where the system starts no thread: as the user nobody, who may have one
# task (prlimit of util-linux); root is needed for that. The output and the end are to be those of a run by
# one worker, all steps are by one of the eight, and `replay` of the journal is to print the report.
here=$(cd "$(dirname "$0")" && pwd) || exit 1
work=$(mktemp -d) && chmod 755 "$work" || exit 1
trap 'rm -rf "$work"' EXIT
"$here/../erim" >/dev/null 2>&1 # built by now
cp "$here/../crates/erim_cli/out/erim_cli" "$work/erim" || exit 1
mkdir -m 777 "$work/saved"
failed=0
for seed in 0 795 7999; do
    "$work/erim" gen "$seed" "$work/image" >/dev/null && chmod 644 "$work/image"
    "$work/erim" run "$work/image" "$work/journal" --workers 1 >"$work/alone"
    setpriv --reuid=65534 --clear-groups prlimit --nproc=1 \
        "$work/erim" run "$work/image" "$work/saved/journal" --workers 8 >"$work/report"
    "$work/erim" replay "$work/image" "$work/saved/journal" >"$work/again"
    head -n 2 "$work/alone" >"$work/output"
    if ! head -n 2 "$work/report" | cmp -s - "$work/output" ||
        ! cmp -s "$work/report" "$work/again" || ! grep -aq '^end exit 0$' "$work/report" ||
        [ "$(grep -ac '^worker ' "$work/report")" != 1 ]; then
        echo "not as expected: seed $seed"
        failed=1
    fi
    rm -f "$work/saved/journal"
done
[ "$failed" = 0 ] && echo "3 programs ran without threads"
exit "$failed"
