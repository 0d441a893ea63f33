#!/bin/bash
# Prints for each model what `synth` finds, how many blocks and bytes its C has, how many nodes the certificate has, how
# many predicates were tracked at the end, how many of them were added, in how many rounds and with how many solutions
# over cells in all, and the seconds and the peak memory that it takes; then what the exact decision of the same game
# takes, alone. A round is one solution over the cells of the tracked predicates, after which, if it fails, some are
# added; the other solutions sought the shortest prefix of these that decides. No report of `synth` tells them, so the
# program of crates/bench decides the game once more and counts. bench/models names the models.
# Other models than these may be given, generated ones by their numbers: bench/synth.sh 8 my.spec
set -e
cd "$(dirname "$0")/.."
source bench/models
build bench

rounds() {
    { sed 's/^/| /' "$1" && echo 'refine 1'; } | "$bench" | sed 's/.*, rounds /rounds /'
}

line() {
    rm -f "$folder"/out.*
    taken=$(bench/measured.py "$folder/report" "$termite" synth "$2" "$folder/out")
    found=$(head -n 1 "$folder/report")
    sizes=""
    if [ "$found" = driver ]; then
        sizes=", $(grep -c '^L[0-9]*:' "$folder/out.c") blocks, $(wc -c < "$folder/out.c") bytes"
    fi
    first=$(sed -n 's/^track //p' "$folder/report")
    added=$(grep -c '^add ' "$folder/report" || true)
    tracked="$((first + added)) predicates, $added added, $(rounds "$2")"
    echo "$1: $found$sizes, $(tail -n 1 "$folder/report"), $tracked  $taken, exact $(exact "$2")"
}

for_each_model "$@"
