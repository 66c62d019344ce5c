#!/usr/bin/env bash
# The program in dist/x86_64-linux: whether it is that of these crates, stripped, byte for byte.
#     dist/build.sh             builds the program, proving first what isn't proved yet (tests/build.sh), and compares
#     dist/build.sh --built     compares with the program that `rt ci` or a build left in crates/star_tool/out, and builds nothing
#     dist/build.sh --write     puts it in the place of the one there, with SHA256SUMS and BUILT_FROM, the line of `rt version`; with --built too
# The kit's own LLVM strips it, so that no other tool's version shows in its bytes. It says on standard error how far it is.
set -e
cd "$(dirname "$0")/.."
built=crates/star_tool/out/star_tool
kept=dist/x86_64-linux
work=$(mktemp -d)
trap 'rm -rf "$work"' EXIT

words=" $* "
if [[ $words != *" --built "* ]]; then
    bash tests/build.sh
fi
if [ ! -x $built ]; then
    echo "$built isn't there: rt ci leaves it, and so does bash tests/build.sh" >&2
    exit 1
fi
kit=$(dirname "$(dirname "$(readlink -f "$(command -v rt)")")")
(exec -a llvm-strip "$kit/toolchain/bin/clang" -o "$work/star_tool" $built)
if [[ $words = *" --write "* ]]; then
    mkdir -p $kept
    cp "$work/star_tool" $kept/
    chmod 755 $kept/star_tool
    (cd $kept && sha256sum star_tool >SHA256SUMS)
    echo "kit $(rt version)" >$kept/BUILT_FROM
    echo "$kept/star_tool is written, $(stat -c %s $kept/star_tool) bytes"
    exit 0
fi
(cd $kept && sha256sum --quiet -c SHA256SUMS)
if ! cmp "$work/star_tool" $kept/star_tool || ! grep -qxF "kit $(rt version)" $kept/BUILT_FROM; then
    echo "the program of these crates is another one, or of another kit: bash dist/build.sh --write" >&2
    exit 1
fi
echo "$kept/star_tool is the program of these crates, stripped, byte for byte"
