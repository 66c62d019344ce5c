#!/usr/bin/env bash
# Writes anew all that the repository keeps built, in the order in which one is made of the other: the program, the client's archive and shared
# library, the module, and of the module the lowered one and the portable client; the Rust crate's copies come along. It proves first what
# isn't proved yet. It wants rt, binaryen and wabt (Debian: binaryen, wabt).
set -e
cd "$(dirname "$0")/.."
for tool in rt wasm-opt wasm2c; do
    command -v $tool >/dev/null || { echo "no $tool here, and without it not all can be written" >&2; exit 1; }
done
bash dist/build.sh --write
bash bindings/build.sh --write
bash bindings/web/build.sh --write
bash bindings/portable/build.sh --write
git status --short dist bindings
