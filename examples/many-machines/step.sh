#!/usr/bin/env bash
# One step of a collection: step.sh VERB PROGRAM EPOCH TARGET SOURCE..
#
# Runs `PROGRAM VERB --epoch EPOCH` on the sources, one behind the other, and names what it writes TARGET once it is whole. Where TARGET is
# there already, nothing is done. It ends with the status of the program.
set -u
verb=$1 program=$2 epoch=$3 target=$4
shift 4
[ -e "$target" ] && exit 0
part=$(mktemp "$target.XXXXXX") || exit 3
cat "$@" | "$program" "$verb" --epoch "$epoch" >"$part"
status=("${PIPESTATUS[@]}")
if [ "${status[1]}" -ne 0 ]; then
    rm -f "$part"
    exit "${status[1]}"
elif [ "${status[0]}" -ne 0 ]; then
    rm -f "$part"
    exit 3
fi
mv "$part" "$target"
