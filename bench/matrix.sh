#!/bin/sh
# Measures how long the command `matrix` takes: on the cells of examples/, on made cells that grow in devices and in inputs,
# and on the OSU library where its Debian package is installed.
# usage: bench/matrix.sh [PROGRAM [SECONDS]]
# PROGRAM is the built program (crates/cellaware/out/cellaware if left out). A cell is measured once more, up to three times in all,
# while its runs took less than a second; the least time counts. A run is stopped after SECONDS (300 if left out).
# Prints one CSV record per cell; the last field says why there is no time. Needs sh, awk, GNU date, timeout, and python3 for the OSU library.
set -u
top=$(cd "$(dirname "$0")/.." && pwd)
program=${1:-$top/crates/cellaware/out/cellaware}
limit=${2:-300}
work=$(mktemp -d)
trap 'rm -rf "$work"' EXIT
trap 'exit 1' INT TERM PIPE

if [ ! -x "$program" ]; then
    echo "no program $program: build it first, as README.md says" >&2
    exit 1
fi

# Of the cell $2 in the file $1: its numbers of transistors, and of pins of each role.
count_of() {
    awk -v cell="$2" '
        BEGIN { cell = toupper(cell) }
        { first = toupper($1) }
        first == ".SUBCKT" { inside = toupper($2) == cell }
        inside && first ~ /^M/ { devices++ }
        inside && first == "*.PININFO" { for (k = 2; k <= NF; k++) pins[toupper(substr($k, length($k)))]++ }
        END { print devices + 0 "," pins["I"] + 0 "," pins["O"] + 0 }' "$1"
}

# The record of the cell $2 in the file $1, which belongs to the set $3.
measure() {
    best=
    note=
    runs=0
    while [ "$runs" -lt 3 ]; do
        start=$(date +%s%N)
        line=$(timeout "$limit" "$program" matrix "$1" "$2" "$work/out.csv" 2>"$work/errors")
        status=$?
        nanos=$(($(date +%s%N) - start))
        runs=$((runs + 1))
        if [ "$status" -ne 0 ]; then
            best=
            if [ "$status" -eq 124 ]; then note="longer than $limit s"; else note=$(cat "$work/errors"); fi
            break
        fi
        if [ -z "$best" ] || [ "$nanos" -lt "$best" ]; then best=$nanos; fi
        [ "$nanos" -ge 1000000000 ] && break
    done
    if [ -n "$best" ]; then
        seconds=$(awk -v nanos="$best" 'BEGIN { printf "%.3f", nanos / 1e9 }')
        counts=$(echo "$line" | awk -F '[ ,]+' '{ print $2 "," $4 "," $6 }')
    else
        seconds=
        counts=,,
    fi
    echo "$3,$2,$(count_of "$1" "$2"),$counts,$seconds,$note"
}

# All cells of the file $1, of the set $2.
measure_all() {
    for cell in $(awk 'toupper($1) == ".SUBCKT" { print $2 }' "$1"); do
        measure "$1" "$cell" "$2"
    done
}

# A NAND of $1 inputs and a chain of inverters after it, with $2 transistors in all, which is even and at
# least 2 * $1; its name is $3.
make_cell() {
    awk -v inputs="$1" -v devices="$2" -v name="$3" 'BEGIN {
        chain = devices / 2 - inputs
        out = chain > 0 ? "Y0" : "Z"
        pins = ""
        roles = ""
        for (k = 1; k <= inputs; k++) { pins = pins " A" k; roles = roles " A" k ":I" }
        print ".SUBCKT " name pins " Z VDD VSS"
        print "*.PININFO" roles " Z:O VDD:P VSS:G"
        for (k = 1; k <= inputs; k++) {
            print "MP" k, out, "A" k, "VDD VDD P W=2u L=1u"
            print "MN" k, (k == 1 ? out : "N" (k - 1)), "A" k, (k == inputs ? "VSS" : "N" k), "VSS N W=2u L=1u"
        }
        for (k = 1; k <= chain; k++) {
            to = k == chain ? "Z" : "Y" k
            print "MPC" k, to, "Y" (k - 1), "VDD VDD P W=2u L=1u"
            print "MNC" k, to, "Y" (k - 1), "VSS VSS N W=2u L=1u"
        }
        print ".ENDS"
    }'
}

echo "set,cell,devices,inputs,outputs,defects,exposable,records,seconds,note"
for file in nand2 fa28 cells; do
    measure_all "$top/examples/$file.sp" "$file"
done

for devices in 4 8 16 32 64 96; do
    make_cell 2 "$devices" "TWO_INPUTS_$devices"
done > "$work/devices.sp"
measure_all "$work/devices.sp" devices

for inputs in 1 2 3 4 5 6; do
    make_cell "$inputs" 24 "INPUTS_$inputs"
done > "$work/inputs.sp"
measure_all "$work/inputs.sp" inputs

osu=/usr/share/qflow/tech/osu035
if [ -r "$osu/osu035_stdcells.sp" ]; then
    "$top/tools/add_pin_roles.py" "$osu/osu035_stdcells.sp" --models "$osu/osu035_stdcells.v" \
        --power vdd,vdd2 --ground gnd,gnd2 > "$work/osu035.sp" 2>/dev/null
    measure_all "$work/osu035.sp" osu035
else
    echo "no $osu: apt-get install qflow-tech-osu035" >&2
fi
