#!/usr/bin/env bash
# The C entries for sequences of Clifford elements give every reply and every byte that tests/reference computes apart, with the elements as exact
# matrices; spelled sequences and their closing elements return the states of Z1 and B2 in the check; and the example runs.
# usage: tests/cliffords.sh [ARCHIVE]     without ARCHIVE, also as a variable, the library is proved and built first
set -eu
cd "$(dirname "$0")/.."
archive=${1:-${ARCHIVE:-}}
if [ -z "$archive" ]; then
  archive=target/staticlib/librelease.a
  tools/build library
fi
out=$(mktemp -d)
trap 'rm -rf "$out"' EXIT

for program in tests/c/cliffords.c examples/closing.c; do
  gcc -std=c11 -O1 -Wall -Wextra -Werror -Iinclude "$program" "$archive" -o "$out/$(basename "$program" .c)"
done

PYTHONDONTWRITEBYTECODE=1 python3 tests/reference/cliffords.py "$out/jobs"
"$out/cliffords" "$out/jobs"

"$out/closing" >"$out/printed"
diff - "$out/printed" <<'LINES'
10: S
16: H
22: S S H S
closed by 3: H S S H
LINES
echo "the example prints what it must"
