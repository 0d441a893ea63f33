#!/bin/bash
# Proves and builds termite, and prints the end of a play of the transmitter for each number, with the seconds that the
# play takes: so many lines of choices, `driver` and `stutter` in turn, stand behind the steps that lead to a magic
# block. Two million of them are nearly the longest text of choices. What the prover says goes to standard error. Other
# numbers than these may be given: bench/run.sh 1000 50000
set -e
cd "$(dirname "$0")/.."
example=$PWD/examples/transmitter
(cd crates/termite && rt run -- run "$example/spec" "$example/driver.c" "$example/choices" > /dev/null)
choices=$(mktemp)
trap 'rm -f "$choices"' EXIT
TIMEFORMAT='  %R seconds'
if [ $# -eq 0 ]; then
    set -- 200000 2000000
fi
for count in "$@"; do
    printf 'start\nprocess dev.tx\nprocess os.client 65\n' > "$choices"
    awk -v count="$count" 'BEGIN { for (line = 0; line < count; line++) print line % 2 ? "stutter" : "driver" }' >> "$choices"
    { time crates/termite/out/termite run "$example/spec" "$example/driver.c" "$choices" | tail -n 1; } 2>&1
done
