#!/usr/bin/env bash
# Builds the library's archive from the proved crates and runs the C tests on it.
set -euo pipefail
cd "$(dirname "$0")/.."
cc=${CC:-cc}
at() { echo "tests: $1 of 14: $2"; }
at 1 "the archive (minutes, where the crates are not proved yet)"
mkdir -p target
bash tools/build.sh archive 2>target/build.log || { cat target/build.log; exit 1; }
flags=(-std=c99 -O2 -Wall -Wextra -Werror)
"$cc" "${flags[@]}" tests/replay.c target/staticlib/libnichelarder.a -o target/replay
"$cc" "${flags[@]}" tests/deep.c target/staticlib/libnichelarder.a -o target/deep
# bound lazily, as programs are by default: a process's first call takes the most then
"$cc" "${flags[@]}" tests/stack.c target/staticlib/libnichelarder.a -o target/stack -pthread -Wl,-z,lazy
"$cc" "${flags[@]}" tests/buffers.c target/staticlib/libnichelarder.a -o target/buffers
"$cc" "${flags[@]}" tests/walk.c target/staticlib/libnichelarder.a -o target/walk
at 2 "the header alone, in C and in C++, and the example, whose output is stored"
strict=(-Wall -Wextra -Wpedantic -Wconversion -Wshadow -Werror)
"$cc" -std=c99 "${strict[@]}" -Wstrict-prototypes -Wmissing-prototypes tests/header.c target/staticlib/libnichelarder.a -o target/header
target/header || { echo "header: a helper is wrong in C"; exit 1; }
"${CXX:-c++}" -x c++ -std=c++11 "${strict[@]}" -Wold-style-cast tests/header.c -x none target/staticlib/libnichelarder.a -o target/header
target/header || { echo "header: a helper is wrong in C++"; exit 1; }
"$cc" -std=c99 "${strict[@]}" examples/panel.c target/staticlib/libnichelarder.a -o target/panel
target/panel | diff examples/panel.txt -
at 3 "the stored scripts${VECTORS:+, and those of $VECTORS}"
target/replay tests/scripts/*.txt ${VECTORS:+"$VECTORS"/e05-*.txt}
at 4 "the split point at every target"
python3 -B tests/make_rounding.py | target/replay /dev/stdin
at 5 "random inserts"
REPLAY=target/replay bash tests/random.sh inserts 8000
at 6 "random inserts and removals"
REPLAY=target/replay bash tests/random.sh removals 8000
at 7 "hostile calls"
REPLAY=target/replay bash tests/random.sh hostile 20000
at 8 "the deepest image on a stack of 128 KB"
(ulimit -s 128 && target/deep)
at 9 "the stack of each call, and of a process's first one"
target/stack
target/stack save target/split.img
for call in check diagnose walk find climb read next records format insert remove; do
    target/stack first "$call" target/split.img
done
at 10 "what the archive needs is what the header says"
needs=$(nm -u target/staticlib/libnichelarder.a | awk '$1 == "U" { print $2 }' | sort -u | paste -sd ' ' | sed 's/ /, /g')
grep -qxF " * The archive needs of the C library: $needs." include/nichelarder.h || { echo "header: the archive needs $needs"; exit 1; }
at 11 "buffers that lie in the image, and empty ones"
target/buffers
at 12 "walks against next, read and climb"
target/walk
at 13 "the listing program"
bash tests/listing.sh
at 14 "the tool"
bash tests/tool.sh
