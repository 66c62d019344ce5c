#!/usr/bin/env bash
# deployment_collector.sh PROGRAM: the tests of the collector in examples/deployment that need no package: changed frames at the door compared with
# `check`, the configuration, the store with killed children, backup and restore, retries. The others there are run by hand; each file begins with how.
set -e
program=$(realpath "$1")
cd "$(dirname "$0")/../examples/deployment/tests"
export PYTHONDONTWRITEBYTECODE=1
python3 frames_test.py "$program" 5000
python3 configuration_test.py
python3 store_test.py
python3 keep_test.py "$program"
python3 retry_test.py
