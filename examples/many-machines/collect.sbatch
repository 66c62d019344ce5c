#!/bin/bash
# The same collection as a job of Slurm (Debian: slurm-wlm): sbatch collect.sbatch PROGRAM EPOCH FOLDER PART..
#
# Each step is an `srun` of one task, so the steps of a level are spread over the nodes of the job. PROGRAM, FOLDER and the parts lie on a
# file system that all nodes share.
#SBATCH --job-name=star-books
#SBATCH --ntasks=4
#SBATCH --mem-per-cpu=3G
#SBATCH --time=01:00:00
set -u
here=${STAR_COLLECT:-$SLURM_SUBMIT_DIR}
program=$(realpath "$1")
epoch=$2
mkdir -p "$3" || exit 3
folder=$(realpath "$3")
shift 3

# each step of a level in the background; the level is done when all are
one() {
    srun --exclusive --ntasks=1 "$here/step.sh" "$@" &
    steps+=($!)
}
all() {
    for step in "${steps[@]}"; do
        wait "$step" || exit
    done
    steps=()
}
steps=()

books=()
for part in "$@"; do
    books+=("$folder/0-${#books[@]}.book")
    one book "$program" "$epoch" "${books[-1]}" "$(realpath "$part")"
done
all

level=0
while [ "${#books[@]}" -gt 1 ]; do
    level=$((level + 1))
    above=()
    for ((i = 0; i < ${#books[@]}; i += 2)); do
        if [ $((i + 1)) -lt "${#books[@]}" ]; then
            above+=("$folder/$level-${#above[@]}.book")
            one merge "$program" "$epoch" "${above[-1]}" "${books[i]}" "${books[i + 1]}"
        else
            above+=("${books[i]}")
        fi
    done
    all
    books=("${above[@]}")
done

one openbook "$program" "$epoch" "$folder/opened" "${books[0]}"
all
