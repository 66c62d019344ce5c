# Builds tests/client/lines.c over the portable client with each compiler that is here, into the folder $work, and appends what runs it to
# the array `programs` of who sources this. Builds tests/client/faulty.c and rooms.c with gcc's sanitizers, and runs them.
: "${work:?a folder}"
portable=bindings/portable
# portable_program NAME COMPILER OPTIONS RUNNER..
portable_program() {
    local name=$1 compiler=$2 options=$3
    shift 3
    if ! command -v "$compiler" >/dev/null || { [ $# -gt 0 ] && ! command -v "$1" >/dev/null; }; then
        echo "portable client, $name: not tested, $compiler${1:+ or $1} isn't here"
        return
    fi
    "$compiler" -O2 -std=c11 -pedantic -Wall -Wextra -Werror -Ibindings/c -c $portable/star_client_portable.c -o "$work/portable_$name.o"
    "$compiler" -O2 -std=c11 -w -c $portable/module.c -o "$work/module_$name.o"
    "$compiler" -O2 -std=c11 -Wall -Wextra -Werror $options -Ibindings/c -o "$work/lines_$name" tests/client/lines.c "$work/portable_$name.o" "$work/module_$name.o"
    programs+=(-- "$@" "$work/lines_$name")
}
wine=$(command -v wine || command -v wine64 || echo wine)
portable_program gcc gcc ""
portable_program clang clang ""
portable_program arm64 aarch64-linux-gnu-gcc -static qemu-aarch64
portable_program armhf arm-linux-gnueabihf-gcc -static qemu-arm
portable_program windows.exe x86_64-w64-mingw32-gcc -static "$wine"
if command -v gcc >/dev/null; then
    sanitized=(gcc -g -O1 -std=c11 -fsanitize=address,undefined -fno-sanitize-recover=undefined -Ibindings/c -I$portable)
    "${sanitized[@]}" -w -c $portable/module.c -o "$work/module_sanitized.o"
    for test in faulty rooms; do
        "${sanitized[@]}" -Wall -Wextra -pthread -o "$work/$test" tests/client/$test.c $portable/star_client_portable.c "$work/module_sanitized.o"
        "$work/$test"
    done
fi
