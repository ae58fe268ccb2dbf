#!/usr/bin/env bash
# Builds the library, the program and the benchmarks for release, and runs both benchmarks. bench/README.md says what is measured.
# usage: bench/run.sh [ARCHIVE PROGRAM]     without them the library and the program are proved and built first; the archive's name is libNAME.a
set -eu
cd "$(dirname "$0")/.."
export PYTHONDONTWRITEBYTECODE=1
archive=${1:-}
if [ -z "$archive" ]; then
  archive=target/staticlib/librelease.a
  tools/build library program
fi
program=${2:-target/bin/zhargutai}
ARCHIVE=$(realpath "$archive") cargo build --release --quiet --offline --manifest-path bench/Cargo.toml --target-dir target/bench
out=$(mktemp -d)
trap 'rm -rf "$out"' EXIT
python3 tests/reference/families.py write "$out/families" 8 12 16 20
python3 tests/reference/families.py random "$out/random" 500

target/bench/release/bench
target/bench/release/check "$program" "$out/families" "$out/random"
