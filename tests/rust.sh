#!/usr/bin/env bash
# The Rust side: the proved library is made, then the tests of the binding, of the second program and of the comparison
# run. Those of the comparison break an index or a frame program on purpose, and see that it is noticed.
set -eu
cd "$(dirname "$0")/.."
. tests/x86-64.inc
tools rt cc run cargo
tools/build library >/dev/null
cd rust
if [ -n "$RUN_X86_64" ]; then
  # The second program does not need the library: its tests are compiled for this machine, the others run in the emulator.
  own_cargo test --offline --quiet -p second
  "$CARGO" test --offline --quiet -p korytanka -p compare
else
  "$CARGO" test --offline --quiet
fi
