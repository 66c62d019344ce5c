#!/usr/bin/env bash
# Builds the program at crates/star_tool/out/star_tool, proving first what isn't proved yet. It says on standard error how far it is.
# Where nothing has changed it takes seconds.
cd "$(dirname "$0")/.." || exit 1
exec bash tests/prove.sh crates/star_tool rt run -- check
