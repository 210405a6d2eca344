#!/bin/sh
# Measures how long the commands on one cell take: on the cells of examples/, on a library of 1,024 cells, on a long card, and on files that are
# too long.
# usage: bench/commands.sh [PROGRAM]
# PROGRAM is the built program (crates/cellaware/out/cellaware if left out).
# Prints one CSV record per measurement: what, how many runs, seconds of all runs together. Needs sh, awk, GNU date and GNU head.
set -u
top=$(cd "$(dirname "$0")/.." && pwd)
program=${1:-$top/crates/cellaware/out/cellaware}
work=$(mktemp -d)
trap 'rm -rf "$work"' EXIT
trap 'exit 1' INT TERM PIPE

if [ ! -x "$program" ]; then
    echo "no program $program: build it first, as README.md says" >&2
    exit 1
fi

# The time of the command after $1, which says what it is, and $2, its number of runs. A run has to end with
# the status that `wanted` has.
wanted=0
measure() {
    what=$1
    runs=$2
    shift 2
    start=$(date +%s%N)
    for run in $(seq "$runs"); do
        "$program" "$@" >/dev/null 2>&1
        status=$?
        if [ "$status" -ne "$wanted" ]; then
            echo "$what,,status $status"
            return
        fi
    done
    awk -v nanos=$(($(date +%s%N) - start)) -v what="$what" -v runs="$runs" 'BEGIN { printf "%s,%d,%.3f\n", what, runs, nanos / 1e9 }'
}

echo "what,runs,seconds"
nand2=$top/examples/nand2.sp
measure "respond on the NAND" 100 respond "$nand2" NAND2 11
measure "pair on the NAND with an open" 100 pair "$nand2" NAND2 11 01 'MP1(D)'
measure "defects of the NAND" 100 defects "$nand2" NAND2
measure "respond on a full adder" 100 respond "$top/examples/fa28.sp" FA28 1X0
measure "pair on a full adder with a short" 100 pair "$top/examples/fa28.sp" FA28 000 111 VDD=S
measure "defects of a full adder" 100 defects "$top/examples/fa28.sp" FA28

# 1,024 copies of the NAND, each with a name of its own.
awk '{ text[NR] = $0 } END { for (n = 0; n < 1024; n++) for (k = 1; k <= NR; k++) { line = text[k]; sub(/NAND2/, "N" n, line); print line } }' \
    "$nand2" >"$work/library.sp"
measure "respond on the last of 1024 cells" 10 respond "$work/library.sp" n1023 11
measure "defects of the last of 1024 cells" 10 defects "$work/library.sp" n1023

# A NAND whose header has 100,000 continuation lines without a word.
awk 'NR == 1 { print; for (n = 0; n < 100000; n++) print "+"; next } { print }' "$nand2" >"$work/long.sp"
measure "respond with 100000 continuation lines" 10 respond "$work/long.sp" NAND2 11

# 16 MiB of comment lines and a NAND, which is read, and one byte more, which is refused.
size=$((16777216 - $(wc -c <"$nand2")))
yes '* a comment line' | head -c $((size - 1)) >"$work/full.sp"
echo >>"$work/full.sp"
cat "$nand2" >>"$work/full.sp"
measure "respond on a file of 16777216 bytes" 3 respond "$work/full.sp" NAND2 11
echo >>"$work/full.sp"
wanted=3
measure "refusing a file of 16777217 bytes" 10 respond "$work/full.sp" NAND2 11
