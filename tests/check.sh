#!/usr/bin/env bash
# The check's C entry gives every reply and every byte that tests/reference computes apart; the example runs, and a program that calls both jobs.
# usage: tests/check.sh [ARCHIVE]     without ARCHIVE, also as a variable, the library is proved and built first
set -eu
cd "$(dirname "$0")/.."
archive=${1:-${ARCHIVE:-}}
if [ -z "$archive" ]; then
  archive=target/staticlib/librelease.a
  tools/build library
fi
out=$(mktemp -d)
trap 'rm -rf "$out"' EXIT

gcc -std=c11 -O1 -Wall -Wextra -Werror -Iinclude tests/c/check.c "$archive" -o "$out/check"
gcc -std=c11 -O1 -Wall -Wextra -Werror -Iinclude examples/check.c "$archive" -o "$out/example"
gcc -std=c11 -O1 -Wall -Wextra -Werror -Iinclude tests/c/both.c "$archive" -o "$out/both"

"$out/example" >"$out/printed"
echo "holds 4" | diff - "$out/printed"
echo "the example prints what it must"
"$out/both"

PYTHONDONTWRITEBYTECODE=1 python3 tests/reference/check_cases.py "$out/cases"
"$out/check" "$out/cases"
PYTHONDONTWRITEBYTECODE=1 python3 tests/tools/cases.py "$out/cases"
