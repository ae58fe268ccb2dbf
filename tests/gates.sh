#!/usr/bin/env bash
# The one-gate entry of the C library gives every reply and every byte that tests/reference computes apart, and the example runs.
# usage: tests/gates.sh [ARCHIVE]     without ARCHIVE, also as a variable, the library is proved and built first
set -eu
cd "$(dirname "$0")/.."
archive=${1:-${ARCHIVE:-}}
if [ -z "$archive" ]; then
  archive=target/staticlib/librelease.a
  tools/build library
fi
out=$(mktemp -d)
trap 'rm -rf "$out"' EXIT

for program in tests/c/gates.c examples/one_gate.c; do
  gcc -std=c11 -O1 -Wall -Wextra -Werror -Iinclude "$program" "$archive" -o "$out/$(basename "$program" .c)"
done

PYTHONDONTWRITEBYTECODE=1 python3 tests/reference/gate_cases.py "$out/cases"
"$out/gates" "$out/cases"
PYTHONDONTWRITEBYTECODE=1 python3 tests/tools/cases.py "$out/cases"

"$out/one_gate" >"$out/printed"
diff - "$out/printed" <<'LINES'
80 bytes, k 1
state 1, choices 1: (1, 0, 0, 0)
state 2, choices 1: (1, 0, 0, 0)
LINES
echo "the example prints what it must"
