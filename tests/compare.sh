#!/usr/bin/env bash
# The comparison: the proved library and the frame program against the second program, one round with the test's seed.
# rust/compare/src/main.rs says what is compared and which counts have to be reached. Words given go to it, as
# `tests/compare.sh --seed 7 --seconds 3600`.
set -eu
cd "$(dirname "$0")/.."
. tests/x86-64.inc
tools rt cc run cargo
tools/build library >/dev/null
tools/build program >/dev/null
(cd rust && "$CARGO" build --release --offline --quiet -p compare)
set -- --program target/bin/korytanka "$@"
if [ -n "$RUN_X86_64" ]; then
  # The emulator runs the library and the frame program; the second program and the comparison are compiled for this machine.
  (cd rust && own_cargo build --release --offline --quiet -p compare)
  set -- --library "rust/$BUILT/release/compare" "$@"
fi
exec rust/target/release/compare "$@"
