#!/usr/bin/env bash
# Random calls with the reference's answers, replayed on the library, from four seeds: random.sh inserts|removals|hostile [COUNT].
# Without COUNT, 200,000 inserts, 200,000 inserts and removals, or 1,000,000 hostile calls. REPLAY names a replay program that is built already;
# with MEMCHECK=1 it runs under valgrind, which finds what it reads or writes out of bounds.
set -euo pipefail
cd "$(dirname "$0")/.."
case "${1:-}" in
    inserts|removals) count=${2:-200000} ;;
    hostile) count=${2:-1000000} ;;
    *) echo "usage: random.sh inserts|removals|hostile [COUNT]" >&2; exit 2 ;;
esac
kind=$1
mkdir -p target
replay=${REPLAY:-}
if [ -z "$replay" ]; then
    echo "$kind: proving and building the archive (minutes)"
    bash tools/build.sh archive 2>target/build.log || { cat target/build.log; exit 1; }
    replay=target/replay
    "${CC:-cc}" -std=c99 -O2 -Wall -Wextra -Werror tests/replay.c target/staticlib/libnichelarder.a -o "$replay"
fi
under=()
if [ -n "${MEMCHECK:-}" ]; then under=(valgrind --quiet --error-exitcode=3); fi
: >"target/$kind.log"
for seed in 1 2 3 4; do
    # what the script reached goes to standard error and into the log
    { python3 -B "tests/make_$kind.py" "$seed" $((count / 4)) 2>&1 >&3 | tee -a "target/$kind.log" >&2; } 3>&1 |
        "${under[@]}" "$replay" /dev/stdin | tee -a "target/$kind.log"
done
awk -v kind="$kind" '/ calls, / { calls += $2; differences += $4 }
    match($0, /exact half: [0-9]+ go down/) { split(substr($0, RSTART), word, " "); down += word[3] }
    match($0, /[0-9]+ go up/) { split(substr($0, RSTART), word, " "); up += word[1] }
    /^[0-9]+ removals; / { removed += $4 }
    /^records freed: / { freed += $3 }
    /^helpers replaced: / { by_proxy += $3; by_other += $13 }
    /^stores full: / { full += $3; empty += $6; again += $11 }
    # cases of which each must be met: "step 1: .. 12; .. 3", of hostile calls "faults: .. 12; .. 3"
    /^(step 1|faults): / {
        head = substr($0, 1, 8)
        n = split(substr($0, 9), part, "; ")
        for (i = 1; i <= n; i++) {
            name = part[i]
            sub(/ [0-9]+$/, "", name)
            if (!(name in met)) { names[++cases] = name; lead[cases] = i > 1 ? "; " : "\n" kind ": " head }
            met[name] += substr(part[i], length(name) + 2)
        }
    }
    match($0, /^deepest nesting of records: [0-9]+/) { split(substr($0, RSTART), word, " "); if (word[5] > deepest) deepest = word[5] }
    match($0, /before the walk: [0-9]+/) { split(substr($0, RSTART), word, " "); before += word[4] }
    match($0, /in the walk: [0-9]+/) { split(substr($0, RSTART), word, " "); walk += word[4] }
    END {
        reached["inserts"] = "; splits at an exact half: " down + 0 " go down, " up + 0 " up"
        helpers = ", helpers replaced by a proxy " by_proxy + 0 ", by another child " by_other + 0
        reached["removals"] = "; removed " removed + 0 ", records freed " freed + 0 helpers
        reached["hostile"] = "; images refused before the walk " before + 0 ", in the walk " walk + 0 ", records nested " deepest + 0 " deep"
        stores = "; stores full " full + 0 " times, empty " empty + 0 ", full again " again + 0
        text = kind ": " calls " calls compared, " differences " differences" reached[kind] (kind == "removals" ? stores : "")
        missed = !cases
        for (i = 1; i <= cases; i++) {
            text = text lead[i] names[i] " " met[names[i]]
            missed = missed || !met[names[i]]
        }
        print text
        # a run that meets no such case shows less than it says
        exit missed || kind == "removals" && !(freed && by_proxy && by_other && full && empty && again) || kind == "hostile" && !(before && walk && deepest == 1022)
    }' "target/$kind.log"
