#!/usr/bin/env bash
# The documents: every command prints what its page says, README.md's first ones in a clean clone with nothing built; links and figures are right.
# usage: tests/documents.sh     the program and the library are proved and built first, where they are not
set -eu
cd "$(dirname "$0")/.."
tools/build library program
python3 tests/tools/documents.py
