#!/usr/bin/env bash
# The files of crates/vectors and crates/mutations, and the lines that they must print, are what tests/reference computes from document 01.
set -u
cd "$(dirname "$0")/.."
out=$(mktemp -d)
trap 'rm -rf "$out"' EXIT
PYTHONDONTWRITEBYTECODE=1 python3 tests/reference/vectors.py "$out" || exit 1
for crate in vectors mutations; do
  for part in args stdout data; do
    diff -r "$out/$crate/$part" "crates/$crate/$part" || exit 1
  done
done
echo "vectors and mutations are as computed apart"
