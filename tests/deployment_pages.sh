#!/usr/bin/env bash
# What examples/deployment shows, with Python alone: the reader of texts on the program's and on broken ones, the pages of hard texts.
#     tests/deployment_pages.sh PROGRAM
set -e
cd "$(dirname "$0")/.."
python3 examples/deployment/tests/text_test.py "$1"
python3 examples/deployment/tests/page_test.py
# The block in its README whose output stands beneath it.
python3 tests/pasted_blocks.py examples/deployment/README.md
