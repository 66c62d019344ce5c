#!/usr/bin/env bash
# Runs the built program on faulty words, tables, inputs and outputs, and on good ones, and compares its exit status, each byte of its output and
# its line on standard error with what docs/FORMATS.md states.
#
# usage: tests/faulty_input.sh [PROGRAM]
cd "$(dirname "$0")/.." || exit 1
program=$(realpath "${1:-crates/star_tool/out/star_tool}")
scratch=$(mktemp -d)
trap 'rm -rf "$scratch"' EXIT
passed=0
failed=0

# run WORDS..: runs the program, and keeps its exit status, its output and its errors in the scratch folder
run() {
    "$program" "$@" >"$scratch/out" 2>"$scratch/err"
    echo $? >"$scratch/status"
}

# told WORDS..: the same, with the output where the caller sends it
told() {
    : >"$scratch/out"
    "$program" "$@" 2>"$scratch/err"
    echo $? >"$scratch/status"
}

# lines TEXT: the text with its last newline, and nothing for no text
lines() {
    [ -z "$1" ] || printf '%s\n' "$1"
}

# wanted NAME STATUS OUTPUT ERROR: compares the last run with a status, and with lines of output and of errors, byte for byte
wanted() {
    if [ "$(cat "$scratch/status")" = "$2" ] && lines "$3" | cmp -s - "$scratch/out" && lines "$4" | cmp -s - "$scratch/err"; then
        passed=$((passed + 1))
    else
        failed=$((failed + 1))
        echo "$1: status $(cat "$scratch/status"), output '$(head -c 300 "$scratch/out" | tr -d '\0')', error '$(tr -d '\0' <"$scratch/err")'"
    fi
    echo none >"$scratch/status"
}

# hashed: puts the SHA-256 of the last output in its place
hashed() {
    sha256sum <"$scratch/out" | cut -c1-64 >"$scratch/hash"
    mv "$scratch/hash" "$scratch/out"
}

# only_last_line: keeps the last line of the last output
only_last_line() {
    tail -n 1 "$scratch/out" >"$scratch/last"
    mv "$scratch/last" "$scratch/out"
}

# times COUNT TEXT: the text so many times
times() {
    printf "%.0s$2" $(seq "$1")
}

usage='usage: star_tool check | reveal --epoch E [--workers W] | make --epoch E --thresholds K,.. [--seed HEX] [--version V] | gen --number N --reports R --liars L [--workers W] | selftest | expect --epoch E --thresholds K,.. --seed HEX | book --epoch E | merge --epoch E | openbook --epoch E [--workers W] | certify --epoch E | audit | epochs [--workers W]'
none='records=0 good=0 refused=0'
seed=--seed=0000000000000000000000000000000000000000000000000000000000000000
pair="make --epoch 1 --thresholds 2,2"
second="make --epoch 1 --thresholds 2 --version 2"

# Words that are no command
run </dev/null
wanted "no words" 2 "" "$usage"
run $'\xff' </dev/null
wanted "a verb that isn't UTF-8" 2 "" "$usage"
run check $'a\xc3' </dev/null
wanted "a stray word that isn't UTF-8" 2 "" "$usage"
for words in "look" "check x" "selftest x" "make" "make --epoch 1" "make --thresholds 2" "$pair --epoch 1" "$pair --seed 00" "$pair --" "$pair x" "$pair -h" \
    "$pair --help" "make --epoch 4294967296 --thresholds 2" "make --epoch +1 --thresholds 2" "make --epoch 1 --thresholds 2,1" \
    "make --epoch 1 --thresholds 2,,2" "make --epoch 1 --thresholds 513" "make --epoch 1 --thresholds $(times 8 2,)2" \
    "make --epoch 1 --thresholds 4097 --version 2" "make --epoch 1 --version 2 --thresholds $(times 16 2,)2" \
    "$pair --version 3" "$pair --version 01" "$pair --version" "make --epoch --thresholds 2" "--epoch 1 make" \
    "reveal" "reveal --workers 2" "reveal --epoch 7 --epoch 7" "reveal --epoch=7 --workers 65" "reveal --epoch +7" "reveal --epoch 4294967296" "reveal --epoch 7 --" \
    "gen" "gen --number 7 --reports 0 --liars 0" "gen --number 7 --reports 65537 --liars 0" "gen --number 7 --reports 1 --liars 101" \
    "expect" "expect --epoch 1 --thresholds 2" "expect --epoch 1 --thresholds 2 $seed --version 1" "certify" "certify --epoch 7 --workers 2" \
    "audit --epoch 7" "epochs x" "epochs --epoch 7" "epochs --workers" "epochs --workers 0" "epochs --workers 65" "epochs --workers 2 --workers 2"; do
    run $words </dev/null
    wanted "$words" 2 "" "$usage"
done

# check
run check </dev/null
wanted "an empty stream" 0 "$none" ""
run check <examples/reports.stream
wanted "the example" 0 "$(cat examples/reports.checked)" ""
run check </
wanted "a folder as standard input" 3 "" "read fault"
run check <&-
wanted "a closed standard input" 3 "" "read fault"
told check </dev/null >/dev/full
wanted "a full disk as standard output" 4 "" "write fault"
told check </dev/null >&-
wanted "a closed standard output" 4 "" "write fault"
head -c 524288 /dev/zero | run check
wanted "131,072 records" 0 "$(seq -f '%.0f refused Truncated 0' 0 131071; echo 'records=131072 good=0 refused=131072')" ""
head -c 524289 /dev/zero | run check
wanted "a byte more" 5 "" "too many"
yes abcdefghijklmnopqrstuvwxyz | head -c 5000000 | run check
wanted "text" 0 "$(printf '0 refused CutRecord 4999996\nrecords=1 good=0 refused=1')" ""

# selftest
run selftest <&-
wanted "the self test" 0 "$(printf 'vector %s ok\n' 1 2 3 4 5 6 7; echo 'vectors=7 ok=7')" ""

# expect
run expect --epoch 7 --thresholds 3,2 "$seed" </dev/null
wanted "a table with no row" 0 "prefixes=0 clear=yes" ""
printf 'red,blue\nred\n' | run expect --epoch 1 --thresholds 2,2 "$seed"
wanted "a row that is too short" 7 "" "bad table: row 1 column 1"
yes red | head -n 65537 | run expect --epoch 1 --thresholds 2 "$seed"
wanted "more rows than a table may have" 5 "" "too many"
told expect --epoch 7 --thresholds 3,2 "$seed" </dev/null >/dev/full
wanted "what a table tells, where nothing can be written" 4 "" "write fault"

# make. The hashes are those of streams that an implementation in Python makes.
run make --epoch 7 --thresholds=3,2 "$seed" <examples/cities.csv
hashed
wanted "the example of a table" 0 6cd5242efee065547705b424121933d28ff74a3f331a9fa837124dd096b4b639 ""
printf '"x,y","say ""hi"""\r\n\r\n"two\nlines", b \r\n\xff\x01,%s' "$(times 64 z)" | run $pair "$seed"
hashed
wanted "quoted cells, a blank line, bytes that aren't UTF-8, a cell of 64 bytes and a last line without its end" 0 f911fb770eb9d8418da2aa8659b0f71729614194e7b2e91753541cd5565acb59 ""
printf 'red,%s\n' "$(times 255 e)" | run $second "$seed"
hashed
wanted "255 extra bytes" 0 14986fc454baa4ff9b2820b0bc5fae26b2e67c8e0dd57c8eed055c399f5b3d8a ""
told make --epoch 1 --thresholds 2 </dev/null >/dev/full
wanted "a table with no row, where nothing can be written" 0 "" ""
echo red | told make --epoch 1 --thresholds 2 >/dev/full
wanted "a row, where nothing can be written" 4 "" "write fault"
echo red | run make --epoch 1 --thresholds 2
wanted_status=$(cat "$scratch/status")
cp "$scratch/out" "$scratch/first"
echo red | run make --epoch 1 --thresholds 2
cmp -s "$scratch/first" "$scratch/out" && echo same >"$scratch/status"
[ "$wanted_status" = 0 ] || echo "$wanted_status" >"$scratch/status"
: >"$scratch/out"
wanted "two runs without a seed differ" 0 "" ""
run check <"$scratch/first"
wanted "a report without a seed" 0 "$(printf '0 good level=0 epoch=1 k=2 box=3 body=1\nrecords=1 good=1 refused=0')" ""
run make --epoch 1 --thresholds 2 <&-
wanted "a closed standard input of a table" 3 "" "read fault"
printf 'a,b\nc\n' | run $pair
wanted "a missing cell" 7 "" "bad table: row 1 column 1"
printf 'a,b,c\n' | run $pair
wanted "a cell too many" 7 "" "bad table: row 0 column 2"
printf 'a,%s\n' "$(times 65 z)" | run $pair
wanted "a cell of 65 bytes" 7 "" "bad table: row 0 column 1"
printf 'red\n' | run $second
wanted "no extra cell" 7 "" "bad table: row 0 column 1"
printf 'red,a,b\n' | run $second
wanted "a cell behind the extra one" 7 "" "bad table: row 0 column 2"
printf 'red,%s\n' "$(times 256 z)" | run $second
wanted "256 extra bytes" 7 "" "bad table: row 0 column 1"
yes a | head -n 65537 | run $pair
wanted "a row too many, of which each is bad" 5 "" "too many"
yes a,b | head -n 65536 | run $pair
cp "$scratch/out" "$scratch/stream"
: >"$scratch/out"
wanted "65,536 rows" 0 "" ""
run check <"$scratch/stream"
only_last_line
wanted "the reports of 65,536 rows" 0 "records=65536 good=65536 refused=0" ""
head -c 134217728 /dev/zero | run $pair
wanted "as many bytes as a table may have" 7 "" "bad table: row 0 column 0"
head -c 134217729 /dev/zero | run $pair
wanted "a byte more than a table may have" 5 "" "too many"

# reveal. The lines are those that docs/FORMATS.md states, as an implementation in Python prints them.
shut='records=0 rows=0 refused=0'
faults=$(printf 'refused 4 outer Share\nrefused 5 outer TooLong\nrefused 6 outer Truncated\nrefused 7 outer CutRecord')
run reveal --epoch 7 </dev/null
wanted "an empty stream to reveal" 0 "$shut" ""
for workers in 1 2 7 64; do
    run reveal --epoch 7 --workers "$workers" <examples/reports.stream
    wanted "the example to reveal, $workers workers" 0 "$(printf 'open DE~2 points=2 agree=2 members=2\nlevel 0 opened=1 few=2 noline=0 badvalue=0\nlevel 1 opened=0 few=2 noline=0 badvalue=0\n%s\nrecords=8 rows=4 refused=4' "$faults")" ""
done
run reveal --epoch=8 <examples/reports.stream
wanted "the example in another epoch" 0 "$(printf 'refused %s outer WrongEpoch\n' 0 1 2 3; printf '%s\nrecords=8 rows=0 refused=8' "$faults")" ""
"$program" make --epoch 7 --thresholds 3,2 <examples/cities.csv | run reveal --epoch 7
wanted "make and reveal" 0 "$(printf 'open DE~3 points=3 agree=3 members=3\nopen DE~3/Berlin~2 points=2 agree=2 members=2\nlevel 0 opened=1 few=2 noline=0 badvalue=0\nlevel 1 opened=1 few=1 noline=0 badvalue=0\nrecords=6 rows=6 refused=0')" ""
run reveal --epoch 7 </
wanted "a folder as standard input of reveal" 3 "" "read fault"
told reveal --epoch 7 </dev/null >/dev/full
wanted "a full disk as standard output of reveal" 4 "" "write fault"
head -c 524289 /dev/zero | run reveal --epoch 7
wanted "a byte more to reveal" 5 "" "too many"
head -c 524288 /dev/zero | run reveal --epoch 7
only_last_line
wanted "131,072 records to reveal" 0 "records=131072 rows=0 refused=131072" ""

# epochs. The lines are those that docs/FORMATS.md states, as an implementation in Python prints them.
run epochs </dev/null
wanted "an empty stream of many epochs" 0 "records=0 epochs=0 refused=0" ""
for workers in 1 2 64; do
    run epochs --workers "$workers" <examples/reports.stream
    wanted "the example, epoch by epoch, $workers workers" 0 "$(printf 'epoch 7\nopen DE~2 points=2 agree=2 members=2\nlevel 0 opened=1 few=2 noline=0 badvalue=0\nlevel 1 opened=0 few=2 noline=0 badvalue=0\nrecords=4 rows=4 refused=0\n%s\nrecords=8 epochs=1 refused=4' "${faults//outer /}")" ""
done
run epochs </
wanted "a folder as standard input of epochs" 3 "" "read fault"
told epochs </dev/null >/dev/full
wanted "a full disk as standard output of epochs" 4 "" "write fault"
head -c 524289 /dev/zero | run epochs
wanted "a byte more for epochs" 5 "" "too many"
head -c 524288 /dev/zero | run epochs
only_last_line
wanted "131,072 records for epochs" 0 "records=131072 epochs=0 refused=131072" ""

# gen. The digest is that of the text that two other programs print of this stream.
run gen --number 7 --reports 20000 --liars 10 <&-
wanted "a stream for trials" 0 "$(printf 'level 0 opened=20 few=0 noline=0 badvalue=0\nlevel 1 opened=190 few=10 noline=0 badvalue=0\nrecords=20000 rows=20000 refused=0\ntext=76981216faef6fb79411b523a3216cd0a1d3d85b182f03c55bdc8086412e84f6')" ""

# certify and audit. The digest is that of the certificates that an implementation in Python writes.
run certify --epoch 7 </dev/null
wanted "an empty stream to certify" 0 "" ""
"$program" make --epoch 7 --thresholds 3,2 "$seed" <examples/cities.csv | run certify --epoch 7
cp "$scratch/out" "$scratch/certs"
hashed
wanted "make and certify" 0 6f2d1807c5fdcb7d12494a869caa1a7046739ac8e877fd474ae461601b98666b ""
run audit <"$scratch/certs"
wanted "two certificates" 0 "$(printf '0 yes DE~3 level=0 points=3 agree=3\n1 yes Berlin~2 level=1 points=2 agree=2\ncerts=2 yes=2')" ""
head -c 491 "$scratch/certs" | run audit
wanted "a byte too few" 12 "" "bad cert 1: Truncated 212"
(cat "$scratch/certs"; printf x) | run audit
wanted "a byte too many" 12 "" "bad cert 2: Truncated 0"
run audit </dev/null
wanted "no certificates" 0 "certs=0 yes=0" ""
run certify --epoch 7 </
wanted "a folder as standard input of certify" 3 "" "read fault"
run audit </
wanted "a folder as standard input of audit" 3 "" "read fault"
told certify --epoch 7 </dev/null >/dev/full
wanted "no certificate, where nothing can be written" 0 "" ""
told audit <"$scratch/certs" >/dev/full
wanted "a full disk as standard output of audit" 4 "" "write fault"
head -c 524289 /dev/zero | run certify --epoch 7
wanted "a byte more to certify" 5 "" "too many"
head -c 536870912 /dev/zero | run audit
wanted "as many bytes as certificates may have" 12 "" "bad cert 0: Magic 0"
head -c 536870913 /dev/zero | run audit
wanted "a byte more than certificates may have" 5 "" "too many"

# book, merge and openbook
run openbook --epoch 1 </dev/null
wanted "no book to open" 0 "$shut" ""
printf STARBOOM | run merge --epoch 1
wanted "bytes that are no book" 10 "" "bad book 0: Magic 0"
"$program" book --epoch 2 </dev/null | run openbook --epoch 1
wanted "a book of another epoch" 11 "" "book 0: epoch 2"
{ "$program" book --epoch 1 </dev/null; printf STAR; } | run merge --epoch 1
wanted "a book that is cut short behind a whole one" 10 "" "bad book 1: Truncated 0"
"$program" book --epoch 7 <examples/reports.stream | run openbook --epoch 7
wanted "the example as a book" 0 "$(printf 'open DE~2 points=2 agree=2 members=2\nlevel 0 opened=1 few=2 noline=0 badvalue=0\nlevel 1 opened=0 few=2 noline=0 badvalue=0\nrecords=4 rows=4 refused=0')" ""
run book --epoch 7 </
wanted "a folder as standard input of book" 3 "" "read fault"
told merge --epoch 7 </dev/null >/dev/full
wanted "a full disk as standard output of merge" 4 "" "write fault"
head -c 524289 /dev/zero | run book --epoch 7
wanted "a byte more than a book counts" 5 "" "too many"

echo "$passed passed, $failed failed"
[ "$failed" -eq 0 ]
