#!/bin/bash
# Prints for each number the verdict on a driver of so many blocks that share their tails (each tests a variable and
# leads to the two behind it, so the ways through them are more than numbers can count), over the generated design for
# 4, with the seconds and the peak memory that the check takes. The certificate's one ranked region is all valid states,
# so the driver's answers are asked for and C6 is what fails. Behind them it prints the same of what `synth` writes for
# the models that bench/models names, with what the exact decision of the game takes.
# Other numbers than these may be given: bench/check.sh 1000 100000
set -e
cd "$(dirname "$0")/.."
source bench/models
build bench

# Prints the verdict of a check, with what it takes.
verdict() {
    taken=$(bench/measured.py "$folder/verdict" "$termite" check "$@")
    echo "$(head -n 1 "$folder/verdict")  $taken"
}

line() {
    rm -f "$folder"/out.*
    "$termite" synth "$2" "$folder/out" > /dev/null || true
    if [ -e "$folder/out.c" ]; then
        echo "$1: $(verdict "$2" "$folder/out.c" "$folder/out.cert"), exact $(exact "$2")"
    else
        echo "$1: $(verdict "$2" "$folder/out.cert"), exact $(exact "$2")"
    fi
}

numbers="${*:-5000 10000}"
"$termite" gen 4 "$folder/spec" > /dev/null
echo '{"bits":49,"format":1,"goals":[{"ranks":[[0,1]]}],"kind":"driver","nodes":[],"region":1}' > "$folder/cert"
for count in $numbers; do
    awk -v count="$count" 'BEGIN {
        printf "#include \"termite.h\"\n\nvoid driver_turn(void)\n{\n"
        for (block = 0; block < count - 2; block++)
            printf "L%d:\n\tif ((v1_os_req == %dULL)) goto L%d; else goto L%d;\n", block, block % 256, block + 1, block + 2
        printf "L%d:\n\tt0_dev_write0(v1_os_req);\n\treturn;\nL%d:\n\treturn;\n}\n", count - 2, count - 1
    }' > "$folder/driver"
    echo "$count blocks: $(verdict "$folder/spec" "$folder/driver" "$folder/cert")"
done
if [ $# -eq 0 ]; then
    for_each_model
fi
