#!/bin/sh
# Times `check` on proofs of 1,000, 10,000 and 100,000 steps by reflexivity over one term, and of 100,000
# such steps over 200 terms of the four theories, and prints the times and their ratios. Each time is the
# least of five runs, in milliseconds. Where valgrind is there, it also prints the instructions a step of
# the loads of 100,000 steps, by callgrind. Needs awk, mktemp and a date that knows nanoseconds (%N).
root=$(cd -- "$(dirname -- "$0")/.." && pwd) || exit 1
folder=$(mktemp -d) || exit 1
trap 'rm -rf -- "$folder"' EXIT

printf '(declare-const p Bool)(rewrite r1 p p)\n' > "$folder/problem"

# The same, and names of the other theories.
{
    printf '(declare-const p Bool)(declare-const i Int)(declare-const a (Array Int Int))\n'
    printf '(declare-width n 32)(declare-const x (_ BitVec n))(rewrite r1 p p)\n'
} > "$folder/theories"

# A proof of $1 steps, the last of which is concluded.
make_proof() {
    awk -v n="$1" 'BEGIN {
        for (k = 1; k <= n; k++) printf "(step t%d (cl (= p p)) :rule refl)\n", k
        printf "(conclude r1 t%d)\n", n
    }'
}

# A proof of $1 steps over 200 terms of the four theories, behind which p is concluded.
make_mixed_proof() {
    awk -v n="$1" 'BEGIN {
        for (k = 1; k < n; k++) {
            c = k % 200
            if (c % 4 == 0) t = "(bvadd x (bv " c " n))"
            else if (c % 4 == 1) t = "(+ i " c ")"
            else if (c % 4 == 2) t = "(select a " c ")"
            else t = "(and p (= i " c "))"
            printf "(step t%d (cl (= %s %s)) :rule refl)\n", k, t, t
        }
        printf "(step t%d (cl (= p p)) :rule refl)\n(conclude r1 t%d)\n", n, n
    }'
}

# One check of the proof $1 of the problem $2, in nanoseconds.
time_check() {
    before=$(date +%s%N)
    answer=$("$root/rare" check - "$2" "$1")
    after=$(date +%s%N)
    if [ "$answer" != "r1 valid" ]; then
        echo "first.sh: check answered '$answer'" >&2
        return 1
    fi
    echo $((after - before))
}

least_of_five() {
    least=
    for _ in 1 2 3 4 5; do
        taken=$(time_check "$1" "$2") || return 1
        if [ -z "$least" ] || [ "$taken" -lt "$least" ]; then
            least=$taken
        fi
    done
    echo "$least"
}

previous=
for steps in 1000 10000 100000; do
    make_proof "$steps" > "$folder/proof"
    taken=$(least_of_five "$folder/proof" "$folder/problem") || exit 1
    awk -v steps="$steps" -v taken="$taken" -v previous="$previous" 'BEGIN {
        printf "%6d steps %10.1f ms", steps, taken / 1e6
        if (previous != "") printf "   %.1f times the time before", taken / previous
        printf "\n"
    }'
    previous=$taken
done

make_mixed_proof 100000 > "$folder/mixed"
taken=$(least_of_five "$folder/mixed" "$folder/theories") || exit 1
awk -v taken="$taken" 'BEGIN { printf "100000 steps %10.1f ms   over 200 terms of the four theories\n", taken / 1e6 }'

# The instructions a step of a check of the proof $1 of the problem $2.
instructions_a_step() {
    valgrind --tool=callgrind --callgrind-out-file=/dev/null "$root/crates/rare_cli/out/rare_cli" check - "$2" "$1" 2>&1 |
        awk '/Collected/ { printf "%d", $NF / 100000 }'
}

if command -v valgrind > /dev/null; then
    echo "instructions a step: $(instructions_a_step "$folder/proof" "$folder/problem") over one term," \
        "$(instructions_a_step "$folder/mixed" "$folder/theories") over 200 terms"
fi
