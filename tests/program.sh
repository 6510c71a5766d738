#!/usr/bin/env bash
# The frame program at a pipe, and the command ./korytanka: tests/program.py says what is tried.
set -eu
cd "$(dirname "$0")/.."
. tests/x86-64.inc
tools rt python3 run
tools/build program >/dev/null
exec python3 tests/program.py
