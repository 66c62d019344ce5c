#!/usr/bin/env bash
# The client as a library: whether archive, module and the portable client are those of the crates; then compares what C, C++, the portable
# client, and the packages for Python, Rust, Node and CMake make, each installed into an empty folder, with what tests/plain makes, and what
# faulty calls give with what they have to. What can't be tested here is said. The last line is 'ok' where all passed.
set -e
cd "$(dirname "$0")/.."
work=$(mktemp -d)
trap 'rm -rf "$work"' EXIT
lib=bindings/c/lib/x86_64-linux

bash bindings/build.sh
bash bindings/web/build.sh
bash bindings/portable/build.sh
bash bindings/carried.sh
strict="-O2 -Wall -Wextra -Werror -Ibindings/c"
${CC:-cc} $strict -std=c11 -pedantic -o "$work/lines_c" tests/client/lines.c $lib/libstar_client.a
${CXX:-c++} $strict -x c++ -o "$work/lines_cxx" tests/client/lines.c -x none $lib/libstar_client.a
${CC:-cc} -g $strict -fsanitize=address,undefined -o "$work/faulty" tests/client/faulty.c $lib/libstar_client.a
"$work/faulty"
programs=(-- "$work/lines_c" -- "$work/lines_cxx")
export WINEDEBUG=-all
source tests/client/portable_programs.sh
source tests/client/packages.sh

reference=()
if [ -e ../shared/tools/star_reference.py ]; then
    reference=(--reference ../shared/tools)
fi
python3 tests/client/compare.py --cases 500 "${reference[@]}" "${programs[@]}"
program=crates/star_tool/out/star_tool
if [ ! -e "$program" ]; then
    program=dist/x86_64-linux/star_tool
fi
python3 tests/client/vectors.py "$program" "${reference[@]}"
python3 tests/client/normal.py
python3 tests/client/batch.py "$work" "$program"
echo ok
