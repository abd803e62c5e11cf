#!/bin/sh
# Builds C programs into images for erim. Usage: build.sh [FOLDER [FILE.c ..]]: the images go to the
# folder, by default crates/command_rows/data, and the programs are by default the examples. CC is
# the compiler (cc by default) and LEVEL its level of optimization (-O2 by default); LDFLAGS go to
# ld. Says what is missing where something is.
here=$(cd "$(dirname "$0")" && pwd) || exit 1
folder=${1:-$here/../crates/command_rows/data}
[ $# -gt 0 ] && shift
if [ $# -eq 0 ]; then
    for name in vault attacker keys keys_attacker log hidden overlaps counters jit sort; do
        set -- "$@" "$here/$name.c"
    done
fi
compiler=${CC:-cc}
for tool in "$compiler" ld objdump; do
    if ! command -v "$tool" >/dev/null; then
        echo "build.sh: $tool is missing (CC names another compiler)" >&2
        exit 1
    fi
done
work=$(mktemp -d) || exit 1
trap 'rm -rf "$work"' EXIT
mkdir -p "$folder" || exit 1

# Freestanding integer code: nothing that needs a C library, SSE, or operands of 16 bits, which gcc
# makes of two bytes. No tables for a switch either: they would lie among the ordinary constants,
# and a domain must not go by what others may change.
options=
for option in -fno-store-merging -fno-jump-tables -fno-tree-switch-conversion; do
    if "$compiler" -Werror $option -E -x c /dev/null >/dev/null 2>&1; then
        options="$options $option"
    fi
done
# shellcheck disable=SC2086 # the options are several
compile() {
    "$compiler" "${LEVEL:--O2}" -ffreestanding -fno-builtin -fno-pic -fno-pie \
        -mgeneral-regs-only -fno-stack-protector -fcf-protection=none \
        -fno-asynchronous-unwind-tables -fno-tree-vectorize $options \
        -Wall -Wextra -I "$here" "$@"
}

for part in start.S notes.S parts.c; do
    compile -c -o "$work/$part.o" "$here/$part" || exit 1
done
for domain in 1 2 3 4; do
    compile -c -DDOMAIN=$domain -o "$work/domain$domain.o" "$here/trusted.S" || exit 1
done
for file; do
    name=$(basename "$file" .c)
    compile -c -o "$work/$name.o" "$file" || exit 1
    domains=
    for domain in 1 2 3 4; do
        if objdump -h "$work/$name.o" | grep -q "\.domain$domain\."; then
            domains="$domains $work/domain$domain.o"
        fi
    done
    # shellcheck disable=SC2086 # LDFLAGS and the domains may be several
    ld -static -z noexecstack ${LDFLAGS:-} -T "$here/erim.ld" -o "$folder/$name.img" \
        "$work/$name.o" "$work/start.S.o" "$work/parts.c.o" $domains "$work/notes.S.o" || exit 1
done
