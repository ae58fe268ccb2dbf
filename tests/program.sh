#!/usr/bin/env bash
# The program prints the line that tests/reference computes apart: document 01's examples, other jobs, and inputs that are no job.
# usage: tests/program.sh [PROGRAM]     without PROGRAM it is proved and built first
set -eu
cd "$(dirname "$0")/.."
export PYTHONDONTWRITEBYTECODE=1
program=${1:-}
if [ -z "$program" ]; then
  program=target/bin/zhargutai
  tools/build program
fi
out=$(mktemp)
trap 'rm -f "$out"' EXIT

python3 tests/reference/check_cases.py "$out"
python3 tests/reference/program.py "$program" "$out" crates/zhargutai
