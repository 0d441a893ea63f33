#!/bin/bash
# Proves and builds termite, and prints for each number how `run` and `check` end on a specification whose process calls a
# chain of so many procedures, with the seconds that each takes, and then how `check` ends on a chain of half as many, in
# which each call stands below an `if` on a local beside a parameter, with the seconds and the peak memory. A SPEC may hold
# some thirty thousand calls. The driver and the certificate are those of examples/flag. What the prover says goes to
# standard error.
# Other numbers than these may be given: bench/calls.sh 100 20000
set -e
cd "$(dirname "$0")/.."
flag=$PWD/examples/flag
(cd crates/termite && rt run -- run "$flag/spec" "$flag/driver.c" "$flag/choices" > /dev/null)
folder=$(mktemp -d)
trap 'rm -rf "$folder"' EXIT
TIMEFORMAT='  %R seconds'
if [ $# -eq 0 ]; then
    set -- 1000 10000 29000
fi
printf 'start\nprocess client\n' > "$folder/choices"
for count in "$@"; do
    awk -v count="$count" 'BEGIN {
        print "template main\nbool x = false;\ntask controllable set() { x = true; }"
        for (at = 0; at < count; at++) printf "procedure void p%d(){p%d();}\n", at, at + 1
        printf "procedure void p%d(){x = true;}\nprocess client { p0(); ...; }\ngoal done = x;\nendtemplate\n", count
    }' > "$folder/spec"
    awk -v count=$((count / 2)) 'BEGIN {
        print "template main\nbool x = false;\ntask controllable set() { x = true; }"
        for (at = 0; at < count; at++) printf "procedure void p%d(bool a){bool b=a;if(b){p%d(b);}}\n", at, at + 1
        printf "procedure void p%d(bool a){x = a;}\nprocess client { p0(true); ...; }\n", count
        print "goal done = x;\nendtemplate"
    }' > "$folder/branches"
    echo "$count calls, and $((count / 2)) below an if"
    { time crates/termite/out/termite run "$folder/spec" "$flag/driver.c" "$folder/choices" | tail -n 1; } 2>&1
    { time crates/termite/out/termite check "$folder/spec" "$flag/driver.c" "$flag/certificate" | tail -n 1; } 2>&1
    python3 bench/measured.py "$folder/out" crates/termite/out/termite check "$folder/branches" "$flag/driver.c" \
        "$flag/certificate"
    tail -n 1 "$folder/out"
done
