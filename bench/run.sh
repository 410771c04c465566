#!/usr/bin/env bash
# Builds the library's archive and prints the benchmarks: times of one run side by side, as ratios, and how full pages get.
set -euo pipefail
cd "$(dirname "$0")/.."
cc=${CC:-gcc}
flags=(-std=c99 -D_POSIX_C_SOURCE=200809L -O3 -Wall -Wextra)
echo "bench: proving and building the archive (minutes)"
mkdir -p target
bash tools/build.sh archive 2>target/build.log || { cat target/build.log; exit 1; }
"$cc" "${flags[@]}" bench/check.c target/staticlib/libnichelarder.a -o target/bench_check
"$cc" "${flags[@]}" bench/walk.c target/staticlib/libnichelarder.a -o target/bench_walk
"$cc" "${flags[@]}" bench/insert.c target/staticlib/libnichelarder.a -o target/bench_insert
"$cc" "${flags[@]}" bench/remove.c target/staticlib/libnichelarder.a -o target/bench_remove
"$cc" "${flags[@]}" bench/fill.c target/staticlib/libnichelarder.a -o target/bench_fill
"$cc" "${flags[@]}" bench/plan.c -o target/bench_plan
"$cc" "${flags[@]}" bench/tree.c target/staticlib/libnichelarder.a -lsqlite3 -o target/bench_tree
target/bench_check
target/bench_walk
target/bench_insert
target/bench_remove
target/bench_fill
target/bench_plan
target/bench_tree
