#!/usr/bin/env bash
# Collects one epoch on several machines: a book of each part, the books merged in pairs as a tree, and the sum opened.
#
# usage: collect.sh PROGRAM EPOCH FOLDER PART..
#
# PROGRAM is the built star_tool. A PART is a file with a stream of records, as `make` writes it. The books and the text, `opened`, come
# to FOLDER. Steps run side by side: by GNU parallel where it is installed, else by xargs. JOBS says how many at once (default 4).
# MACHINES may name a file of GNU parallel with a line for each machine: the steps then run there by ssh, and PROGRAM, FOLDER and the
# parts must have the same paths on each.
#
# A step writes to a file of its own and names it when it is done, so a step that fails leaves no book, and a second call does the
# steps that are left. The status is that of the program where a step failed (5 is too many, 10 a bad book, 11 another epoch).
set -u
step=$(realpath "$(dirname "$0")")/step.sh
if [ $# -lt 4 ]; then
    sed -n 's/^# usage: /usage: /p' "$0" >&2
    exit 2
fi
if [ -n "${MACHINES:-}" ] && { [ "${RUNNER:-}" = xargs ] || ! command -v parallel >/dev/null; }; then
    echo "MACHINES needs GNU parallel" >&2
    exit 2
fi
program=$(realpath "$1")
epoch=$2
mkdir -p "$3" || exit 3
folder=$(realpath "$3")
shift 3

# command WORDS..: the words as a line of shell
command_of() {
    printf '%q ' "$@"
    echo
}

# each: runs the lines of standard input as commands, side by side, and ends with the status of one that failed
each() {
    if [ "${RUNNER:-}" != xargs ] && command -v parallel >/dev/null; then
        parallel --will-cite --halt now,fail=1 --jobs "${JOBS:-4}" ${MACHINES:+--sshloginfile "$MACHINES"}
    else
        rm -f "$folder/.failed"
        xargs -P "${JOBS:-4}" -d '\n' -I{} bash -c 'eval "$2" 2>&3 || { echo $? >"$1"; exit 255; }' _ "$folder/.failed" {} 3>&2 2>/dev/null
        [ ! -e "$folder/.failed" ] || return "$(cat "$folder/.failed")"
    fi
}

# a book of each part
books=()
for part in "$@"; do
    books+=("$folder/0-${#books[@]}.book")
    command_of "$step" book "$program" "$epoch" "${books[-1]}" "$(realpath "$part")"
done >"$folder/.steps"
each <"$folder/.steps" || exit

# two books become one, level after level, and a last one alone goes up as it is
level=0
while [ "${#books[@]}" -gt 1 ]; do
    level=$((level + 1))
    above=()
    for ((i = 0; i < ${#books[@]}; i += 2)); do
        if [ $((i + 1)) -lt "${#books[@]}" ]; then
            above+=("$folder/$level-${#above[@]}.book")
            command_of "$step" merge "$program" "$epoch" "${above[-1]}" "${books[i]}" "${books[i + 1]}"
        else
            above+=("${books[i]}")
        fi
    done >"$folder/.steps"
    each <"$folder/.steps" || exit
    books=("${above[@]}")
done

rm -f "$folder/.steps"
"$step" openbook "$program" "$epoch" "$folder/opened" "${books[0]}"
