#!/usr/bin/env bash
# The module star_client.wasm: whether it is that of these crates.
#     bindings/web/build.sh           proves nothing where BUILT_FROM has the sum of the sources and the kit's line (bindings/sources.py);
#                                     else it proves what isn't proved yet, builds the module and compares it with the one here, byte for byte
#     bindings/web/build.sh --anew    builds and compares in any case
#     bindings/web/build.sh --write   builds, and puts the module in the place of the one here, with BUILT_FROM and SHA256SUMS
# The gate's tool takes no crate for WebAssembly, so a copy of the crates is built in which one line of crates.txt differs. It says on
# standard error how far it is.
set -e
cd "$(dirname "$0")/../.."
web=bindings/web
copy=$(mktemp -d)
trap 'rm -rf "$copy"' EXIT

build() {
    git ls-files -z crates crates.txt HANDLES | xargs -0 cp --parents -t "$copy"
    sed -i 's/^star_client_c staticlib:/star_client_c wasm64 stack=65536 memory=131072:/' "$copy/crates.txt"
    bash tests/prove.sh "$copy/crates/star_client_c" rt lib
    new=$copy/crates/star_client_c/out/star_client_c.wasm
}

if [ "$1" = --write ]; then
    build
    cp "$new" $web/star_client.wasm
    chmod 644 $web/star_client.wasm
    python3 bindings/sources.py >$web/BUILT_FROM
    (cd $web && sha256sum star_client.wasm >SHA256SUMS)
    echo "$web/star_client.wasm is written, $(stat -c %s $web/star_client.wasm) bytes"
    exit 0
fi

(cd $web && sha256sum --quiet -c SHA256SUMS)
if [ "$1" != --anew ] && python3 bindings/sources.py $web/BUILT_FROM; then
    echo "$web/star_client.wasm has the sum of these crates; nothing was proved"
    exit 0
fi
if ! command -v rt >/dev/null; then
    echo "the module is of other sources, and without rt it can't be built anew" >&2
    exit 1
fi
build
if ! cmp "$new" $web/star_client.wasm; then
    echo "the module of these crates is another one: bash $web/build.sh --write" >&2
    exit 1
fi
echo "$web/star_client.wasm is that of these crates, byte for byte"
