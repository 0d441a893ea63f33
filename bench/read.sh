#!/bin/bash
# Prints how `check` reads texts of 1 MiB of statements whose last line has a fault: one that its tokens have, one that
# its tree has, and one that its names have, so that a text is read as far as that. Nothing behind a fault is read.
set -e
cd "$(dirname "$0")/.."
source bench/models
build
flag=examples/flag

# A text of so many bytes of a statement, with a last line.
text() {
    printf 'template main\nbool x = false;\nuint<8> count = 0;\nprocess p {\n'
    yes "$1" | head -c $((1048000 / (${#1} + 1) * (${#1} + 1)))
    printf '%s\n' "$2"
}

for statement in '    count = count + 1; if (count == 7) { x = !x; }' 'x = !x;'; do
    for last in '$' '} endtemplate }' 'y = true; } endtemplate'; do
        text "$statement" "$last" > "$folder/text"
        taken=$(bench/measured.py "$folder/verdict" "$termite" check "$folder/text" $flag/driver.c $flag/certificate)
        echo "'${statement#    }' to '$last': $(wc -c < "$folder/text") bytes, $(tail -n 1 "$folder/verdict")  $taken"
    done
done
