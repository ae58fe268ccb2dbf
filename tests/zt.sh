#!/usr/bin/env bash
# tools/zt: texts and bytes go both ways unchanged, damaged texts give messages, each command does what it says, and the jobs of examples/ print their lines.
# usage: tests/zt.sh [PROGRAM]     without PROGRAM it is proved and built first
set -eu
cd "$(dirname "$0")/.."
export PYTHONDONTWRITEBYTECODE=1
program=${1:-}
if [ -z "$program" ]; then
  program=target/bin/zhargutai
  tools/build program
fi
python3 tests/tools/roundtrip.py
python3 tests/tools/damaged.py
python3 tests/tools/constructions.py
python3 tests/tools/calls.py "$program"
python3 tests/tools/browser.py
ZHARGUTAI=$program python3 tools/zt batch examples/jobs --expect -j 2
