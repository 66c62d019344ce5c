#!/usr/bin/env bash
# The portable client's C, and the module of 32 bits: whether they are those of the proved module, bindings/web/star_client.wasm.
#     bindings/portable/build.sh           compares what is here with that module's SHA-256; and byte for byte with what the tools make of it,
#                                          where they are here in the versions that SHA256SUMS was written with (TOOLS)
#     bindings/portable/build.sh --write   makes both anew: bindings/web/star_client_32.wasm, and module.c and module.h here
# The tools are binaryen's wasm-opt, which lowers the 64-bit memory, and wabt's wasm2c (Debian: binaryen, wabt). Nothing is proved here.
set -e
cd "$(dirname "$0")/../.."
here=bindings/portable
web=bindings/web
work=$(mktemp -d)
trap 'rm -rf "$work"' EXIT

tools() {
    wasm-opt --version
    echo "wasm2c $(wasm2c --version)"
}
origin="star_client.wasm, SHA-256 $(sha256sum <$web/star_client.wasm | cut -c1-64)"

# Four edits of what wasm2c writes: what it includes for functions that this module lacks goes (mingw has no alloca.h); so does its check that
# a table was filled, since there is none (NDEBUG), and the barrier that keeps loads whose result nobody reads; and the memory's size, which is
# fixed, is a constant, so that each check of an address costs one comparison.
made() {
    wasm-opt --enable-memory64 --enable-bulk-memory --memory64-lowering $web/star_client.wasm -o "$work/star_client_32.wasm"
    wasm2c "$work/star_client_32.wasm" -n module -o "$work/module.c"
    {
        echo "/* Made by bindings/portable/build.sh from $origin,"
        echo " * by $(tools | paste -sd, | sed 's/,/ and /'). */"
        echo '#define NDEBUG'
        sed -e '/^#define alloca _alloca$/d; /^#include <malloc.h>$/d; /^#include <alloca.h>$/d' \
            -e 's/^#define wasm_asm __asm__$/#define wasm_asm(X)/; s/mem->size/WASM_RT_MEMORY_BYTES/' "$work/module.c"
    } >"$work/new.c"
    mv "$work/new.c" "$work/module.c"
    base=$(sed -n 's/.*___heap_base = \([0-9]*\)ull;$/\1/p' "$work/module.c")
    if [ -z "$base" ] || [ "$base" -gt $((66 * 1024)) ]; then
        echo "the module's data ends at $base, above the 66 KB that star_client_portable.c takes for it" >&2
        exit 1
    fi
}

if [ "$1" = --write ]; then
    made
    cp "$work/module.c" "$work/module.h" $here/
    cp "$work/star_client_32.wasm" $web/
    tools >$here/TOOLS
    (cd bindings && sha256sum portable/module.c portable/module.h web/star_client_32.wasm >portable/SHA256SUMS)
    bash bindings/carried.sh --write
    echo "$here and $web/star_client_32.wasm are written"
    exit 0
fi

(cd bindings && sha256sum --quiet -c portable/SHA256SUMS)
if ! head -n 1 $here/module.c | grep -qF "$origin,"; then
    echo "the portable client is that of another module: bash $here/build.sh --write" >&2
    exit 1
fi
if command -v wasm-opt >/dev/null && command -v wasm2c >/dev/null && cmp -s <(tools) $here/TOOLS; then
    made
    cmp "$work/module.c" $here/module.c
    cmp "$work/module.h" $here/module.h
    cmp "$work/star_client_32.wasm" $web/star_client_32.wasm
    echo "$here and $web/star_client_32.wasm are what the tools make of the module, byte for byte"
else
    echo "$here and $web/star_client_32.wasm have the module's sum; the tools that made them aren't here"
fi
