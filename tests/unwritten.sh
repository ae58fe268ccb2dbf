#!/usr/bin/env bash
# When the program's line cannot be written, standard error says so; otherwise it is empty. The status is 0 both times. When its input cannot be
# read, it prints no line, standard error says why, and the status is 1.
# usage: tests/unwritten.sh [PROGRAM]     without PROGRAM it is proved and built first
set -eu
cd "$(dirname "$0")/.."
program=${1:-}
if [ -z "$program" ]; then
  program=target/bin/zhargutai
  tools/build program
fi
out=$(mktemp -d)
trap 'rm -rf "$out"' EXIT
"$program" <crates/zhargutai/stdin >/dev/full 2>"$out/full"
echo "output: No space left on device" | diff - "$out/full"
"$program" <crates/zhargutai/stdin >&- 2>"$out/closed"
echo "output: Bad file descriptor" | diff - "$out/closed"
"$program" <crates/zhargutai/stdin >"$out/line" 2>"$out/none"
[ ! -s "$out/none" ]
diff crates/zhargutai/stdout "$out/line"
status=0
"$program" <&- >"$out/unread" 2>"$out/why" || status=$?
[ "$status" -eq 1 ]
[ ! -s "$out/unread" ]
grep -q "Bad file descriptor" "$out/why"
echo "the program says when its line cannot be written or its input not read"
