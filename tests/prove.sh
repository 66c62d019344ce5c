#!/usr/bin/env bash
# Runs a command of rt in the folder FOLDER, says on standard error how far it is (a line for each crate that is proved), and shows the end
# of what it said where it fails.
#     tests/prove.sh FOLDER COMMAND..
cd "$1" || exit 1
shift
log=$(mktemp)
trap 'rm -f "$log"' EXIT
"$@" </dev/null 2>&1 >/dev/null | tee "$log" | grep --line-buffered -E '^(==|crate|rt:) ?' >&2
status=${PIPESTATUS[0]}
if [ "$status" -ne 0 ]; then
    tail -n 40 "$log" >&2
fi
exit "$status"
