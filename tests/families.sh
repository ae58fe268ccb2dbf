#!/usr/bin/env bash
# The program prints the line of each large family of tests/reference/families.py, at 8 and at 20 qubits, each within a minute.
# usage: tests/families.sh [PROGRAM [N..]]     without PROGRAM it is proved and built first
set -eu
cd "$(dirname "$0")/.."
export PYTHONDONTWRITEBYTECODE=1
program=${1:-}
shift || true
if [ -z "$program" ]; then
  program=target/bin/zhargutai
  tools/build program
fi
[ $# -gt 0 ] || set -- 8 20
out=$(mktemp -d)
trap 'rm -rf "$out"' EXIT

python3 tests/reference/families.py self-test
python3 tests/reference/families.py write "$out" "$@"
runs=0
wrong=0
for job in "$out"/*.job; do
  runs=$((runs + 1))
  status=0
  timeout 60 "$program" <"$job" >"$out/printed" || status=$?
  if [ "$status" -ne 0 ] || ! cmp -s "$out/printed" "${job%.job}.line"; then
    wrong=$((wrong + 1))
    echo "$(basename "$job"): wanted '$(cat "${job%.job}.line")', got '$(cat "$out/printed")', status $status"
  fi
done
echo "$runs jobs of the families at n = $*: $wrong wrong"
[ "$runs" -gt 0 ] && [ "$wrong" -eq 0 ]
