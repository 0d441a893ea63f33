#!/bin/bash
# Compiles the drivers of examples that have a header of their own with gcc and clang, without a warning.
# Other drivers may be given with their folders' headers: examples/compilers/devices.sh examples/uart/driver.c
set -e
here="$(cd "$(dirname "$0")" && pwd)"
flags="-std=c11 -Wall -Wextra -Werror -Wno-unused-label -Wno-parentheses-equality -Wno-type-limits -Wno-tautological-compare"
if [ $# -eq 0 ]; then
    for header in "$here"/../*/termite.h; do
        folder="$(dirname "$header")"
        for driver in "$folder/driver.c" "$folder/structured.c"; do
            if [ -e "$driver" ]; then
                set -- "$@" "$driver"
            fi
        done
    done
fi
for compiler in gcc clang; do
    if ! command -v "$compiler" > /dev/null; then
        echo "$compiler is not there: not tried"
        continue
    fi
    known=""
    for flag in $flags; do
        # (each compiler has warnings that the other does not know)
        if "$compiler" -Werror "$flag" -x c -fsyntax-only /dev/null 2> /dev/null; then
            known="$known $flag"
        fi
    done
    for driver in "$@"; do
        "$compiler" $known -O2 -c -I "$(dirname "$driver")" "$driver" -o /dev/null
    done
    echo "$compiler: $# drivers compiled without a warning"
done
