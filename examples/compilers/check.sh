#!/bin/bash
# Compiles drivers that are drawn, as text with jumps and as structured text, with gcc and clang, at -Wall -Wextra without
# a warning, and compares what they answer with what the tool answers, at 200 states each. It builds the program that
# draws them, without a proof.
# Other seeds may be given: examples/compilers/check.sh 7 8 9
set -e
here="$(cd "$(dirname "$0")" && pwd)"
work="$(mktemp -d)"
trap 'rm -rf "$work"' EXIT
flags="-std=c11 -Wall -Wextra -Werror -Wno-unused-label -Wno-parentheses-equality -Wno-type-limits -Wno-tautological-compare"
if [ $# -eq 0 ]; then
    set -- $(seq 1 40)
fi
(cd "$here/../../crates/test_commands" && printf '%s\n' "${@/#/drawn }" "${@/#/drawn structured }" | rt try > "$work/all" 2> "$work/said") || { cat "$work/said" >&2; exit 1; }
# each sample begins with its include line, behind the line that asks for it
grep -v '^> ' "$work/all" | csplit -s -z -f "$work/sample" -n 4 - '/^#include/' '{*}'
compilers=0
for compiler in gcc clang; do
    if ! command -v "$compiler" > /dev/null; then
        echo "$compiler is not there: not tried"
        continue
    fi
    compilers=$((compilers + 1))
    known=""
    for flag in $flags; do
        # (each compiler has warnings that the other does not know)
        if "$compiler" -Werror "$flag" -x c -fsyntax-only /dev/null 2> /dev/null; then
            known="$known $flag"
        fi
    done
    for sample in "$work"/sample*; do
        sed '/^answers$/,$d' "$sample" > "$work/driver.c"
        sed '1,/^answers$/d' "$sample" > "$work/wanted"
        "$compiler" $known -O2 -I "$here" "$work/driver.c" "$here/harness.c" -o "$work/driver"
        "$work/driver" < "$work/wanted" > "$work/answered"
        cmp "$work/wanted" "$work/answered"
    done
    echo "$compiler: $# drivers, each in both texts, compiled without a warning, with the same answers"
done
[ "$compilers" -gt 0 ] || echo "no compiler is there: nothing was tried"
