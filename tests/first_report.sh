#!/usr/bin/env bash
# As a new user would: in a new folder with the repository's files alone, and with no toolchain of proofs on the path, runs the blocks of
# docs/CLIENTS.md and README.md, from nothing to a first report in each language and to what `reveal` tells of it. It says how long that took,
# which has to be under a minute. Where a language isn't on this machine its documents' blocks can't run, and it says so.
set -e
cd "$(dirname "$0")/.."
for tool in cc python3 cargo npm node; do
    if ! command -v $tool >/dev/null; then
        echo "no $tool here: the blocks of the documents aren't run"
        exit 0
    fi
done
work=$(mktemp -d)
trap 'rm -rf "$work"' EXIT
git ls-files -z --cached --others --exclude-standard | xargs -0 cp --parents -t "$work" 2>/dev/null
cd "$work"
kit=$(dirname "$(readlink -f "$(command -v rt || echo /none/rt)")")
links=$(dirname "$(command -v rt || echo /none/rt)")
PATH=$(tr : '\n' <<<"$PATH" | grep -vxF -e "$kit" | tr '\n' : | sed 's/:$//')
if [ "$links" != "$kit" ] && command -v rt >/dev/null; then
    mkdir tools
    printf '#!/bin/sh\necho "no rt here" >&2; exit 127\n' >tools/rt
    chmod +x tools/rt
    PATH=$work/tools:$PATH
fi
from=$SECONDS
python3 tests/pasted_blocks.py README.md docs/CLIENTS.md
echo "from nothing to the text of reveal in each language: $((SECONDS - from)) s"
[ $((SECONDS - from)) -lt 60 ]
