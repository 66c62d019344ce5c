#!/usr/bin/env bash
# Runs the collection of examples/many-machines with real processes, by GNU parallel where it is installed and by xargs, and compares what it opens
# with `reveal` of all records. Then merges eight books of 16,384 records in random orders and groupings, and compares the bytes.
#
# usage: tests/books.sh [PROGRAM [ORDERS]]
cd "$(dirname "$0")/.." || exit 1
program=$(realpath "${1:-crates/star_tool/out/star_tool}")
orders=${2:-50}
scratch=$(mktemp -d)
trap 'rm -rf "$scratch"' EXIT
passed=0
failed=0

# same NAME FILE FILE: compares two files
same() {
    if cmp -s "$2" "$3"; then
        passed=$((passed + 1))
    else
        failed=$((failed + 1))
        echo "$1: the files differ"
    fi
}

# seed NUMBER: the option of a seed that ends so
seed() {
    printf -- '--seed=%064d' "$1"
}

# Five parts, of which the last has records that are no report of the epoch
for part in 1 2 3 4; do
    "$program" make --epoch 7 --thresholds 3,2 "$(seed "$part")" <examples/cities.csv >"$scratch/part $part.stream"
done
cp examples/reports.stream "$scratch/part 5.stream"
cat "$scratch"/part*.stream | "$program" reveal --epoch 7 | grep -v '^refused' | sed 's/^records=.*/rows=28/' >"$scratch/wanted"
for runner in parallel xargs; do
    RUNNER=$runner bash examples/many-machines/collect.sh "$program" 7 "$scratch/$runner" "$scratch"/part*.stream || failed=$((failed + 1))
    sed 's/^records=.*/rows=28/' "$scratch/$runner/opened" >"$scratch/got"
    same "the collection by $runner" "$scratch/wanted" "$scratch/got"
done
RUNNER=xargs bash examples/many-machines/collect.sh "$program" 8 "$scratch/later" "$scratch/part 1.stream" "$scratch/part 2.stream"
cp "$scratch/xargs/0-0.book" "$scratch/later/0-0.book"
rm -f "$scratch"/later/1-0.book "$scratch/later/opened"
RUNNER=xargs bash examples/many-machines/collect.sh "$program" 8 "$scratch/later" "$scratch/part 1.stream" "$scratch/part 2.stream" 2>"$scratch/error"
echo "status $?" >>"$scratch/error"
printf 'book 0: epoch 7\nstatus 11\n' >"$scratch/wanted"
same "a book of another epoch in the tree" "$scratch/wanted" "$scratch/error"

# Eight books of rows that are partly the same, and every book also once alone
for book in 0 1 2 3 4 5 6 7; do
    awk -v book="$book" 'BEGIN { for (i = 0; i < 16384; i++) printf "%s,%d\n", i % 50 ? "common" i % 50 : "own" book, i % 997 }' \
        | "$program" make --epoch 1 --thresholds 20,10 "$(seed $((book / 2)))" | "$program" book --epoch 1 >"$scratch/$book.book"
done
cat "$scratch"/[0-7].book | "$program" merge --epoch 1 >"$scratch/all.book"
for order in $(seq "$orders"); do
    shuffled=$(seq 0 7 | shuf --random-source=<(yes "$order"))
    front=()
    back=()
    for book in $shuffled; do
        if [ $(((book + order) % 3)) -eq 0 ]; then
            front+=("$scratch/$book.book")
        else
            back+=("$scratch/$book.book")
        fi
    done
    { cat "${front[@]}" | "$program" merge --epoch 1; cat "${back[@]}"; } | "$program" merge --epoch 1 >"$scratch/sum.book"
    same "order $order" "$scratch/all.book" "$scratch/sum.book"
done

echo "$passed passed, $failed failed"
[ "$failed" -eq 0 ]
