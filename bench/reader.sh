#!/bin/sh
# Counts the instructions that `check` takes for a byte of its proof, by callgrind: on a text of blanks
# and comments, on one of short steps, and on the names of steps. From the first two counts that of a
# proof without bytes is taken away, and from that of steps with names of a hundred bytes that of as many
# steps with names of eight. Needs valgrind, awk and mktemp; ends with status 0 and a word where valgrind
# is missing.
if ! command -v valgrind >/dev/null 2>&1; then
    echo "reader.sh: valgrind is not there"
    exit 0
fi
root=$(cd -- "$(dirname -- "$0")/.." && pwd) || exit 1
folder=$(mktemp -d) || exit 1
trap 'rm -rf -- "$folder"' EXIT

printf '(declare-const p Bool)(rewrite r1 p p)\n' > "$folder/problem"
: > "$folder/nothing"
awk 'BEGIN {
    for (k = 0; k < 70; k++) blanks = blanks " "
    for (k = 0; k < 68; k++) text = text "c"
    for (k = 0; k < 7000; k++) printf "%s\n; %s\n", blanks, text
}' > "$folder/gaps"
# Steps whose names have $1 bytes before their numbers.
named() {
    awk -v front="$1" 'BEGIN {
        for (k = 0; k < front; k++) x = x "x"
        for (k = 0; k < 5000; k++) printf "(step %s%07d (cl (= p p)) :rule refl)\n", x, k
    }'
}
named 1 > "$folder/short"
named 93 > "$folder/names"
awk 'BEGIN { for (k = 1; k <= 20000; k++) printf "(step t%d (cl (= p p)) :rule refl)\n", k }' > "$folder/steps"

# rare is a script: build the program before it is counted.
"$root/rare" >/dev/null 2>&1
program=$root/crates/rare_cli/out/rare_cli

# The instructions of one check of the proof $1.
count() {
    valgrind --tool=callgrind --callgrind-out-file=/dev/null "$program" check - "$folder/problem" "$1" 2>&1 >/dev/null |
        awk '/Collected/ { print $4 }'
}

# A line on the proof $1, beside the proof $2.
report() {
    bytes=$(($(wc -c < "$folder/$1") - $(wc -c < "$folder/$2")))
    taken=$(($(count "$folder/$1") - $(count "$folder/$2")))
    awk -v text="$1" -v bytes="$bytes" -v taken="$taken" 'BEGIN {
        printf "%-6s %8d bytes %12d instructions %6.1f a byte\n", text, bytes, taken, taken / bytes
    }'
}

report gaps nothing
report steps nothing
report names short
