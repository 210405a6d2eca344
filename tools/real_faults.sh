#!/usr/bin/env bash
# Tries real faults of files and outputs at the program's edge, and looks at the status, the line and what is
# there afterwards.
#
#   tools/real_faults.sh crates/cellaware/out/cellaware
#
# It needs Linux (/dev/full) and a user who may not write everywhere, or root (then the unwritable folder is skipped). The last line
# counts what went as it should and what didn't.
set -u

program=$(realpath "$1")
examples=$(realpath "$(dirname "$0")/../examples")
folder=$(mktemp -d)
trap 'chmod -R u+w "$folder"; rm -rf "$folder"' EXIT
cd "$folder" || exit 1
cp "$examples"/{cells.sp,inv.v,c17.v} .
passed=0 failed=0

# expect NAME STATUS LINE: the last command had this status, and its line on the standard error is this one, in the file err.
expect() {
    if [ "$status" = "$2" ] && [ "$(cat err)" = "$3" ]; then
        passed=$((passed + 1))
    else
        failed=$((failed + 1))
        echo "$1: status $status, $(cat err)"
    fi
}
# holds NAME CONDITION..: the condition holds.
holds() {
    local name=$1
    shift
    if "$@"; then passed=$((passed + 1)); else failed=$((failed + 1)); echo "$name doesn't hold"; fi
}

"$program" check cells.sp c17.v - > /dev/full 2> err; status=$?
expect "full output" 4 "cellaware: output fault"
"$program" check cells.sp c17.v - >&- 2> err; status=$?
expect "closed output" 4 "cellaware: output fault"
"$program" defects cells.sp NAND2 2> err | head -c 0; status=${PIPESTATUS[0]}
if [ "$status" = 0 ] || [ "$status" = 4 ] || [ "$status" = 141 ]; then passed=$((passed + 1)); else failed=$((failed + 1)); echo "closed pipe: $status"; fi
"$program" check missing.sp c17.v - > out 2> err; status=$?
expect "missing file" 4 "cellaware: file fault: missing.sp"
mkdir dir
"$program" check dir c17.v - > out 2> err; status=$?
expect "folder in place of a file" 4 "cellaware: file fault: dir"
"$program" atpg cells.sp inv.v - dir r.csv 3 > out 2> err; status=$?
expect "folder in place of STIL" 4 "cellaware: file fault: dir"
holds "no report after a failed STIL" test ! -e r.csv
holds "nothing printed" test ! -s out
"$program" atpg cells.sp inv.v - p.stil dir 3 > out 2> err; status=$?
expect "folder in place of REPORT" 4 "cellaware: file fault: dir"
holds "STIL is whole" grep -q "^Pattern" p.stil
holds "nothing printed" test ! -s out
"$program" atpg cells.sp inv.v - none/p.stil r.csv 3 > out 2> err; status=$?
expect "no such folder" 4 "cellaware: file fault: none/p.stil"
"$program" atpg cells.sp inv.v - /dev/full r.csv 3 > out 2> err; status=$?
expect "full disk" 4 "cellaware: file fault: /dev/full"
holds "no report after a full disk" test ! -e r.csv
"$program" atpg cells.sp inv.v - ./inv.v r.csv 3 > out 2> err; status=$?
expect "STIL is a file that was read" 4 "cellaware: file fault: ./inv.v"
holds "the netlist stands" cmp -s inv.v "$examples/inv.v"
ln -s cells.sp link.stil
"$program" atpg cells.sp inv.v - link.stil r.csv 3 > out 2> err; status=$?
expect "STIL is a link to a file that was read" 4 "cellaware: file fault: link.stil"
holds "the library stands" cmp -s cells.sp "$examples/cells.sp"
# the commands that read patterns, and those that write other files
rm -f p.stil r.csv
"$program" certify cells.sp inv.v - p.stil i.cert 3 > out 2> err
printf 'pair,output\n0,z\n' > i.log
for command in "grade cells.sp inv.v - p.stil OUT" "diagnose cells.sp inv.v - p.stil i.log OUT" "flatten cells.sp inv.v - - - OUT" \
    "matrix cells.sp INV OUT" "certify cells.sp inv.v - q.stil OUT 3" "bridges cells.sp c17.v - g4 q.stil OUT 3"; do
    name=${command%% *}
    "$program" ${command/OUT/w.out} > out 2> err; status=$?
    expect "$name" 0 ""
    cp w.out whole.out
    "$program" ${command/OUT/w.out} > /dev/full 2> err; status=$?
    expect "full output of $name" 4 "cellaware: output fault"
    holds "the file of $name is whole after a full output" cmp -s w.out whole.out
    "$program" ${command/OUT/w.out} >&- 2> err; status=$?
    expect "closed output of $name" 4 "cellaware: output fault"
    "$program" ${command/OUT/dir} > out 2> err; status=$?
    expect "folder in place of the file of $name" 4 "cellaware: file fault: dir"
    holds "nothing printed by $name" test ! -s out
    "$program" ${command/OUT//dev/full} > out 2> err; status=$?
    expect "full disk of $name" 4 "cellaware: file fault: /dev/full"
    holds "nothing printed by $name" test ! -s out
    "$program" ${command/OUT/none/w.out} > out 2> err; status=$?
    expect "no folder for the file of $name" 4 "cellaware: file fault: none/w.out"
done
for command in "grade cells.sp inv.v - OUT r.csv" "diagnose cells.sp inv.v - OUT i.log r.csv" "verify cells.sp inv.v - OUT i.cert"; do
    name=${command%% *}
    "$program" ${command/OUT/missing} > out 2> err; status=$?
    expect "missing patterns of $name" 4 "cellaware: file fault: missing"
    "$program" ${command/OUT/dir} > out 2> err; status=$?
    expect "folder in place of the patterns of $name" 4 "cellaware: file fault: dir"
    holds "no report of $name" test ! -e r.csv
done
if [ "$(id -u)" != 0 ]; then
    mkdir closed && chmod a-w closed
    "$program" atpg cells.sp inv.v - closed/p.stil r.csv 3 > out 2> err; status=$?
    expect "unwritable folder" 4 "cellaware: file fault: closed/p.stil"
fi
# a file that is cut while it is read ends early, as though it were shorter
head -c 8000000 /dev/zero | tr '\0' '*' > long.sp
("$program" check long.sp c17.v - > out 2> err; echo $? > code) & truncate -s 100 long.sp; wait
status=$(cat code)
if [ "$status" = 2 ] || [ "$status" = 4 ]; then passed=$((passed + 1)); else failed=$((failed + 1)); echo "cut file: $status"; fi
echo "$passed passed, $failed failed"
[ "$failed" = 0 ]
