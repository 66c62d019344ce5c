#!/usr/bin/env bash
# try.sh as a user without root's rights: the page has the first 100 reports, one's own are on it a moment later, and Ctrl-C leaves nothing behind.
#     tests/try_test.sh        (as root it runs try.sh as nobody)
set -euo pipefail
cd "$(dirname "$0")/.."
port=${PORT:-18470}
folder=$(mktemp -d)
log=$folder/log
tree=$folder/tree
mkdir -p "$tree/examples" "$tree/bindings" "$tree/dist" "$folder/tmp" "$folder/home"
cp -rL . "$tree/examples/deployment"
cp -r ../../bindings/web ../../bindings/python ../../bindings/c "$tree/bindings/"
cp -r ../../dist/x86_64-linux "$tree/dist/"
as_user=()
if [ "$(id -u)" = 0 ]; then
    chmod 755 "$folder"
    chown -R nobody "$folder"
    as_user=(setpriv --reuid nobody --regid nogroup --clear-groups)
fi
run=(env HOME="$folder/home" TMPDIR="$folder/tmp" PORT="$port" PATH=/usr/bin:/bin)
# With monitoring, a job of its own gets the interrupt as from a terminal.
set -m
"${as_user[@]}" "${run[@]}" bash "$tree/examples/deployment/try.sh" < /dev/null > "$log" 2>&1 &
job=$!
set +m
finish() { kill -TERM -- -$job 2> /dev/null || true; rm -rf "$folder"; }
trap finish EXIT
fail() { echo "failed: $1" >&2; cat "$log" >&2; exit 1; }
wait_for() { for _ in $(seq 300); do if "$@" > /dev/null 2>&1; then return 0; fi; sleep .3; done; fail "$*"; }
# The page as text, without a program that a fresh Debian doesn't have.
page() { /usr/bin/python3 -c 'import sys, urllib.request; sys.stdout.write(urllib.request.urlopen(sys.argv[1], timeout=5).read().decode())' "$1"; }
has() { page "http://127.0.0.1:$port/pages/preview.html" | grep -q "<b>$1</b>reports counted"; }

wait_for grep -q "Ctrl-C ends all of it" "$log"
has 100 || fail "the first 100 reports"
page "http://127.0.0.1:$port/pages/preview.html" | grep -q '<svg viewBox="0 0 1080' || fail "a plot"
page "http://127.0.0.1:$port/pages/index.html" | grep -q 'preview.html' || fail "the page of all weeks"
"${as_user[@]}" "${run[@]}" /usr/bin/python3 "$tree/examples/deployment/try_reports.py" "http://127.0.0.1:$port/?trial" 3 > "$folder/own"
grep -q "has 3 reports" "$folder/own" || fail "reports of one's own"
wait_for has 103
if "${as_user[@]}" "${run[@]}" bash "$tree/examples/deployment/try.sh" > "$folder/second" 2>&1; then fail "a second one on the same port"; fi
grep -q "is taken" "$folder/second" || fail "the message of a second one"
kill -INT -- -$job
for _ in $(seq 100); do kill -0 -- -$job 2> /dev/null || break; sleep .2; done
if kill -0 -- -$job 2> /dev/null; then fail "it goes on after an interrupt"; fi
left=$(ls -A "$folder/tmp" | grep -v '^\.' || true)
[ -z "$left" ] || fail "it left files: $left"
echo "try.sh: 100 reports on the page as a user without root's rights, 3 more, a second call refused, nothing left"
