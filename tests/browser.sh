#!/usr/bin/env bash
# The page of bindings/web in Chromium and Firefox: each loads it, makes reports from the form and from 500 random requests, by the module and
# by the lowered one, which have to be those of tests/plain, and leaves a screenshot in the folder FOLDER (bindings/out by default). The reports
# that Chromium made from the form are revealed by the built program. Outside the gate, since it installs Debian's packages
# chromium-headless-shell and firefox-esr where they are missing.
#     tests/browser.sh [FOLDER]
set -e
cd "$(dirname "$0")/.."
folder=${1:-bindings/out}
mkdir -p "$folder"
missing=()
for package in chromium-headless-shell firefox-esr; do
    command -v "$package" >/dev/null || missing+=("$package")
done
if [ ${#missing[@]} -gt 0 ]; then
    apt-get update -q >/dev/null
    DEBIAN_FRONTEND=noninteractive apt-get install -y -q "${missing[@]}" >/dev/null
fi
python3 tests/client/browser.py "$folder"
program=dist/x86_64-linux/star_tool
if [ -e "$program" ]; then
    "$program" reveal --epoch 1 < "$folder/page.stream"
fi
