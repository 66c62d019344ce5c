#!/usr/bin/env bash
# The client's archive and shared library in bindings/c/lib/x86_64-linux: whether they are those of these crates.
#     bindings/build.sh           proves nothing where BUILT_FROM has the sum of the sources and the kit's line (bindings/sources.py); else it
#                                 proves what isn't proved yet, builds the archive and compares it with the one there, byte for byte
#     bindings/build.sh --anew    builds and compares in any case
#     bindings/build.sh --write   builds, and puts what it built in the place of what is there, with BUILT_FROM and SHA256SUMS
# The shared library is linked from the archive there in each case: its exports are compared, and its bytes where BUILT_FROM has the line of
# this linker. It says on standard error how far it is.
set -e
cd "$(dirname "$0")/.."
lib=bindings/c/lib/x86_64-linux
work=$(mktemp -d)
trap 'rm -rf "$work"' EXIT

build() {
    bash tests/prove.sh crates/star_client_c rt lib
    cp crates/star_client_c/out/libstar_client_c.a "$work/libstar_client.a"
}
# No start files: they would bring the compiler's version into the bytes, and the library has nothing to start.
link() {
    ${CC:-cc} -shared -nostartfiles -nodefaultlibs -o "$work/libstar_client.so" -Wl,--whole-archive "$1" -Wl,--no-whole-archive \
        -lc -Wl,-z,defs -Wl,-soname,libstar_client.so -Wl,--build-id=none -Wl,--strip-all
}
exports() {
    nm -D --defined-only "$1" | awk '{ print $3 }' | sort
}
linker="linker $(ld --version | head -n 1)"

if [ "$1" = --write ]; then
    build
    mkdir -p $lib
    cp "$work/libstar_client.a" $lib/
    link $lib/libstar_client.a
    cp "$work/libstar_client.so" $lib/
    chmod 644 $lib/libstar_client.*
    { python3 bindings/sources.py; echo "$linker"; } >$lib/BUILT_FROM
    (cd $lib && sha256sum libstar_client.a libstar_client.so >SHA256SUMS)
    bash bindings/carried.sh --write
    echo "$lib is written, $(stat -c %s $lib/libstar_client.a) and $(stat -c %s $lib/libstar_client.so) bytes"
    exit 0
fi

(cd $lib && sha256sum --quiet -c SHA256SUMS)
if [ "$1" != --anew ] && python3 bindings/sources.py $lib/BUILT_FROM; then
    said="has the sum of these crates; nothing was proved"
else
    if ! command -v rt >/dev/null; then
        echo "the archive is of other sources, and without rt it can't be built anew" >&2
        exit 1
    fi
    build
    if ! cmp "$work/libstar_client.a" $lib/libstar_client.a; then
        echo "the archive of these crates is another one: bash bindings/build.sh --write" >&2
        exit 1
    fi
    said="is that of these crates, byte for byte"
fi
link $lib/libstar_client.a
diff <(exports "$work/libstar_client.so") <(exports $lib/libstar_client.so)
if grep -qxF "$linker" $lib/BUILT_FROM; then
    cmp "$work/libstar_client.so" $lib/libstar_client.so
else
    echo "the shared library is compared by its exports alone: this is $linker" >&2
fi
echo "$lib/libstar_client.a $said"
