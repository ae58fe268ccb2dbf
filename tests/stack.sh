#!/usr/bin/env bash
# Neither C entry needs more than 1,048,576 bytes of stack, measured on jobs of the largest sizes; and what docs/BUFFERS.md says of both is within a
# twentieth of what was measured.
# usage: tests/stack.sh [ARCHIVE]     without ARCHIVE, also as a variable, the library is proved and built first
set -euo pipefail
cd "$(dirname "$0")/.."
archive=${1:-${ARCHIVE:-}}
if [ -z "$archive" ]; then
  archive=target/staticlib/librelease.a
  tools/build library
fi
out=$(mktemp -d)
trap 'rm -rf "$out"' EXIT
gcc -std=c11 -O1 -Wall -Wextra -Werror -pthread -Iinclude tests/c/stack.c "$archive" -o "$out/stack"
"$out/stack" | tee "$out/said"
said() { sed -n "s/.*about \([0-9]*\) KB for $1.*/\1/p" docs/BUFFERS.md; }
measured() { sed -n "s/^$1: \([0-9]*\) bytes of stack\$/\1/p" "$out/said"; }
compare() {
  if [ -z "$(said "$1")" ] || [ -z "$(measured "$2")" ] || ! awk -v s="$(said "$1")" -v m="$(measured "$2")" 'BEGIN { d = s * 1000 - m; if (d < 0) d = -d; exit !(d * 20 <= m) }'; then
    echo "docs/BUFFERS.md says $(said "$1") KB for $1, measured were $(measured "$2") bytes"
    exit 1
  fi
}
compare "one gate" zhargutai_one_gate
compare "the check" zhargutai_check
