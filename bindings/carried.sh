#!/usr/bin/env bash
# The archive and the portable client that the Rust crate carries as files of its own: whether they are those of bindings/c and
# bindings/portable; with --write they are copied anew.
set -e
cd "$(dirname "$0")"
files=(c/lib/x86_64-linux/libstar_client.a:lib/x86_64-linux/libstar_client.a c/star_client.h:portable/star_client.h)
for name in star_client_portable.c star_client_portable.h module.c module.h wasm-rt.h; do
    files+=("portable/$name:portable/$name")
done
for file in "${files[@]}"; do
    if [ "$1" = --write ]; then
        mkdir -p "rust/$(dirname "${file#*:}")"
        cp "${file%%:*}" "rust/${file#*:}"
    fi
    cmp "${file%%:*}" "rust/${file#*:}"
done
echo "what the Rust crate carries is what bindings has"
