#!/usr/bin/env bash
# Builds the verified program and the plain C++ one, holds their answers against each other, and prints what an edit costs in
# each.
#
#     bash bench/run.sh [SWAPS]        so many swaps a run, 200000 where nothing is said
#
# CXX and CXXFLAGS choose the C++ compiler and its options. The time is processor time, which other work on the machine
# disturbs less; CLOCK=wall takes the clock on the wall instead.
set -Eeuo pipefail
trap 'echo "bench: FAILED in line $LINENO of run.sh" >&2' ERR
export LC_ALL=C
cd "$(dirname "$0")/.."

swaps=${1:-200000}
cxx=${CXX:-g++}
flags=${CXXFLAGS:--O2}
clock=${CLOCK:-processor}
runs=3
made=target/bench
ours=crates/speed/out/speed
plain=$made/plain

mkdir -p "$made"
# proves the program, builds it, and runs it once for a few swaps
if ! (cd crates/speed && rt run -- 10 8 pair one) >"$made/run.log" 2>&1; then
    tail -n 20 "$made/run.log" >&2
    echo "bench: rt run in crates/speed failed; all that it wrote is in $made/run.log" >&2
    exit 1
fi
# shellcheck disable=SC2086 # the flags are words of their own
"$cxx" -std=c++17 $flags -o "$plain" bench/plain.cpp

# run PROGRAM WORDS..: leaves the line that the program writes in $line, and the microseconds that it took in $spent.
run() {
    local start times TIMEFORMAT='%U %S'
    if [ "$clock" = wall ]; then
        start=${EPOCHREALTIME/./}
        "$@" >"$made/line"
        spent=$((${EPOCHREALTIME/./} - start))
    else
        times=$({ time "$@" >"$made/line" 2>&3; } 3>&2 2>&1)
        spent=$(echo "$times" | awk '{ printf "%d", ($1 + $2) * 1000000 }')
    fi
    line=$(cat "$made/line")
}

echo "$(rt version); $("$cxx" --version | head -n 1), $flags; $(date +%F)"
echo "$swaps swaps a run, $clock time, the best of $runs runs, microseconds an edit"
echo
echo "| cells | book | lengths | ours | C++ | ours / C++ |"
echo "|---|---|---|---|---|---|"
for cells in 8 16 32 64; do
    for book in pair slicing; do
        for lengths in one three; do
            best_ours='' best_plain=''
            # the two take turns, so that what else the machine does meets both
            for _ in $(seq "$runs"); do
                run "$ours" "$swaps" "$cells" "$book" "$lengths"
                line_ours=$line
                if [ -z "$best_ours" ] || [ "$spent" -lt "$best_ours" ]; then best_ours=$spent; fi
                run "$plain" "$swaps" "$cells" "$book" "$lengths"
                if [ -z "$best_plain" ] || [ "$spent" -lt "$best_plain" ]; then best_plain=$spent; fi
                if [ "$line_ours" != "$line" ]; then
                    echo "bench: THE ANSWERS DIFFER at $cells cells, $book, $lengths" >&2
                    echo "  ours: $line_ours" >&2
                    echo "  C++:  $line" >&2
                    exit 1
                fi
            done
            echo "$cells $book $lengths $best_ours $best_plain $swaps" |
                awk '{ printf "| %s | %s | %s | %.2f | %.2f | %.2f |\n", $1, $2, $3, $4 / $6, $5 / $6, $4 / ($5 > 0 ? $5 : 1) }'
        done
    done
done
echo
echo "Both gave the same answers in every case."
