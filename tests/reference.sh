#!/usr/bin/env bash
# The reference in tests/reference agrees with itself: what it builds for random gates has the trees that its matrices give, and its checks, by dense
# vectors, agree with shared trees and with a search over pairs.
set -eu
cd "$(dirname "$0")/.."
export PYTHONDONTWRITEBYTECODE=1
out=$(mktemp)
trap 'rm -f "$out"' EXIT
python3 tests/reference/selftest.py 2000
python3 tests/reference/check_cases.py "$out"
