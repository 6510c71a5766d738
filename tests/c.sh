#!/usr/bin/env bash
# The C side: the header is taken as C and as C++, and the example writes what it should.
set -eu
cd "$(dirname "$0")/.."
. tests/x86-64.inc
tools rt make cc c++ run
tools/build library >/dev/null
"$CC" -std=c99 -Wall -Wextra -Wpedantic -Werror -fsyntax-only -x c include/korytanka.h
if command -v "$CXX" >/dev/null 2>&1; then
  "$CXX" -std=c++11 -Wall -Wextra -Wpedantic -Werror -fsyntax-only -x c++ include/korytanka.h
else
  echo "no c++: the header is not tried as C++"
fi
make --no-print-directory -C examples/c CC="$CC" RUN="$RUN_X86_64" test
