#!/bin/bash
# Prints the milliseconds of one exact solution of a game, of the device with a busy flag and of the generated design
# for 12, in the control order and in the weight order of the bits of states; and those of the lower and of the upper
# part of a drawn set of some 2,000 nodes over 100 bits, by the cells of 20 predicates, in the generated design for 10
# and in a drawn one. The program of crates/bench tells how many nodes the sets and their parts have in all.
set -e
cd "$(dirname "$0")/.."
source bench/models
build bench

"$termite" gen 12 "$folder/gen 12" > /dev/null
cp examples/transmitter/spec "$folder/busy flag"
for model in "busy flag" "gen 12"; do
    for order in control weight; do
        echo "$model, $order order: $(bench/once.py "$bench" "$folder/$model" 20 make decide "$order")"
    done
done

"$termite" gen 10 "$folder/gen 10" > /dev/null
bench/drawn.py 1 12 4 > "$folder/drawn"
for model in "gen 10" drawn; do
    for side in lower upper; do
        echo "$model: $(bench/once.py "$bench" "$folder/$model" 3 draw $side)"
    done
done
