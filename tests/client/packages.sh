# Installs each package into an empty folder below $work, from there alone and with no network, and appends to the array `programs` of who
# sources this what answers requests with it, as tests/client/lines.c says.
: "${work:?a folder}"
top=$PWD

# told TEXT COMMAND..: the command fails, and says this
told() {
    local text=$1
    shift
    if "$@" >"$work/log" 2>&1 || ! grep -qF "$text" "$work/log"; then
        echo "not told by $*: $text"
        cat "$work/log"
        exit 1
    fi
}

# The wheel, by pip, with the library that is kept and with one that the compiler makes
if python3 -m pip --version >/dev/null 2>&1; then
    for kind in kept compiled; do
        export STAR_CLIENT_PORTABLE=$([ $kind = kept ] || echo 1)
        python3 -m pip install -q --no-index --no-deps --disable-pip-version-check --root-user-action=ignore --target "$work/python_$kind" bindings/python
        programs+=(-- env -C "$work" "PYTHONPATH=$work/python_$kind" PYTHONDONTWRITEBYTECODE=1 python3 "$top/tests/client/lines.py")
    done
    unset STAR_CLIENT_PORTABLE
    told "so a C11 compiler has to make one" env -C bindings/python STAR_CLIENT_PORTABLE=1 CC=no-compiler PYTHONDONTWRITEBYTECODE=1 \
        python3 -c 'import backend, sys; backend.build_wheel(sys.argv[1])' "$work"
else
    echo "no pip here: the wheel isn't tested"
fi

# The crate, by cargo, as it is packed
if command -v cargo >/dev/null; then
    cargo package -q --offline --allow-dirty --no-verify --manifest-path bindings/rust/Cargo.toml --target-dir "$work/pack" 2>"$work/log" || { cat "$work/log"; exit 1; }
    if grep '^warning' "$work/log" | grep -v 'no license'; then exit 1; fi
    mkdir -p "$work/rust/src" && tar -xf "$work"/pack/package/star_client-*.crate -C "$work/rust"
    cp tests/client/lines.rs "$work/rust/src/main.rs"
    printf '[package]\nname = "lines_rs"\nversion = "1.0.0"\nedition = "2024"\n[dependencies]\nstar_client = { path = "%s" }\n[workspace]\n' "$(basename "$work"/rust/star_client-*)" >"$work/rust/Cargo.toml"
    for kind in kept compiled; do
        export STAR_CLIENT_PORTABLE=$([ $kind = kept ] || echo 1)
        cargo build -q --offline --manifest-path "$work/rust/Cargo.toml" --target-dir "$work/rust_$kind"
        programs+=(-- "$work/rust_$kind/debug/lines_rs")
    done
    unset STAR_CLIENT_PORTABLE
    told "so a C11 compiler and ar have to make one" env STAR_CLIENT_PORTABLE=1 CC=no-compiler cargo build -q --offline --manifest-path "$work/rust/Cargo.toml" \
        --target-dir "$work/rust_compiled"
    cargo test -q --offline --manifest-path "$work"/rust/star_client-*/Cargo.toml --target-dir "$work/rust_kept" >"$work/log" 2>&1 || { cat "$work/log"; exit 1; }
else
    echo "no cargo here: the crate isn't tested"
fi

# The npm package, by npm, as it is packed. Node 20 has 64-bit memories behind a flag, newer ones without.
if command -v npm >/dev/null; then
    mkdir -p "$work/node"
    (cd bindings/web && npm pack --silent --offline --pack-destination "$work") >/dev/null
    (cd "$work/node" && npm install --silent --offline --no-audit --no-fund --no-save "$work"/star-client-*.tgz)
    cp tests/client/lines.mjs "$work/node/"
    flag=$(node --v8-options | grep -o -m1 -- '--experimental-wasm-memory64' || true)
    programs+=(-- node $flag "$work/node/lines.mjs" star_client.wasm -- node "$work/node/lines.mjs" star_client_32.wasm -- node "$work/node/lines.mjs")
else
    echo "no npm here: the npm package isn't tested"
fi

# WebKit's engine, by its command-line interpreter, with the lowered module
if command -v jsc >/dev/null; then
    programs+=(-- jsc -m tests/client/lines_jsc.mjs)
else
    echo "no jsc here: WebKit's engine isn't tested"
fi

# What make and CMake install, by find_package, and pkg-config
make -s -C bindings/c install PREFIX="$work/prefix"
if command -v cmake >/dev/null; then
    cmake -S bindings/portable -B "$work/portable_build" >"$work/log" && cmake --build "$work/portable_build" >>"$work/log" &&
        cmake --install "$work/portable_build" --prefix "$work/portable_prefix" >>"$work/log" || { cat "$work/log"; exit 1; }
    mkdir -p "$work/cmake" && cp tests/client/lines.c "$work/cmake/"
    printf 'cmake_minimum_required(VERSION 3.13)\nproject(lines C)\nfind_package(star_client REQUIRED)\nadd_executable(${NAME} lines.c)\ntarget_link_libraries(${NAME} star_client::star_client)\n' >"$work/cmake/CMakeLists.txt"
    for kind in prefix portable_prefix; do
        cmake -S "$work/cmake" -B "$work/cmake_$kind" -DCMAKE_PREFIX_PATH="$work/$kind" -DNAME=cmake_$kind >"$work/log" &&
            cmake --build "$work/cmake_$kind" >>"$work/log" || { cat "$work/log"; exit 1; }
        programs+=(-- "$work/cmake_$kind/cmake_$kind")
    done
else
    echo "no cmake here: find_package isn't tested"
fi
if command -v pkg-config >/dev/null; then
    PKG_CONFIG_PATH=$work/prefix/lib/pkgconfig
    ${CC:-cc} -o "$work/pkg_config" tests/client/lines.c $(PKG_CONFIG_PATH=$PKG_CONFIG_PATH pkg-config --cflags --libs star_client)
    programs+=(-- env "LD_LIBRARY_PATH=$work/prefix/lib" "$work/pkg_config")
fi
