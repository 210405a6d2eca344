#!/usr/bin/env bash
# Runs `cellaware atpg` over a list of blocks, many at once, by GNU parallel, and sums their reports.
#
# usage: blocks.sh PROGRAM CELLS BUDGET LIST OUT [words for parallel, such as --jobs 8 or --sshlogin 4/host1,8/host2]
#
# LIST has a line for each block: its name, its netlist and its scan table (or -), with blanks between. The folder OUT
# gets NAME.stil and NAME.csv of each block, NAME.line with what the program printed, and `joblog`. A run that was
# broken off goes on where it stood when it is started again: commands that `joblog` has as done with status 0 are not
# run again, wherever their blocks stand in the list; a block that failed, or has another netlist, scan table or budget
# than it had, is run. Other machines (--sshlogin) have to see PROGRAM, CELLS, the blocks and OUT under the same paths,
# as on a shared disk, and are reached without a password. The status is 0 if each block's was. It needs GNU parallel
# (Debian: `apt-get install parallel`) and awk.
set -u
if [ $# -lt 5 ]; then
  sed -n '2,4p' "$0" | cut -c3- >&2
  exit 1
fi
program=$(realpath "$(command -v "$1")") cells=$(realpath "$2") budget=$3 list=$4 out=$5
shift 5
command -v parallel > /dev/null || { echo "blocks.sh: GNU parallel is missing" >&2; exit 1; }
twice=$(awk 'NF && seen[$1]++ { print $1; exit }' "$list")
[ -z "$twice" ] || { echo "blocks.sh: the list has two blocks $twice" >&2; exit 1; }
mkdir -p "$out" && out=$(realpath "$out") || exit 1
work=$(mktemp -d) || exit 1
trap 'rm -rf "$work"' EXIT
while read -r name netlist scan; do
  [ -n "$name" ] || continue
  [ "$scan" = - ] || scan=$(realpath -m "$scan")
  printf '%s\t%s\t%s\n' "$name" "$(realpath -m "$netlist")" "$scan"
done < "$list" > "$work/blocks"
command=("$program" atpg "$cells" {2} {3} "$out"/{1}.stil "$out"/{1}.csv "$budget" '>' "$out"/{1}.line '2>&1')
# the blocks of which `joblog` has another command last, or one that didn't end with status 0, or whose line is empty, since a
# run was broken off; the file of the line names a block
parallel --will-cite --colsep '\t' --dryrun --keep-order --jobs 1 "${command[@]}" < "$work/blocks" > "$work/commands"
before=
[ ! -e "$out/joblog" ] || before=+
paste "$work/commands" "$work/blocks" |
  awk -F '\t' -v log_file="$out/joblog" '
    function written(line) { sub(/.* > /, "", line); return line }
    BEGIN { while ((getline line < log_file) > 0) { split(line, it, "\t"); last[written(it[9])] = it[7] == "0" && it[8] == "0" ? it[9] : "" } }
    last[written($1)] != $1 || (getline line < written($1)) <= 0 { print $2 "\t" $3 "\t" $4 }' |
  parallel --will-cite --colsep '\t' --joblog "$before$out/joblog" "$@" "${command[@]}"
status=$?
printf '%-20s %s\n' block "what the program printed"
while read -r name _; do
  [ -n "$name" ] && printf '%-20s %s\n' "$name" "$(head -n 1 "$out/$name.line" 2> /dev/null)"
done < "$list"
while read -r name _; do
  [ -n "$name" ] && [ -f "$out/$name.csv" ] && tail -n +2 "$out/$name.csv"
done < "$list" | awk -F, '
  { cell = $(NF - 4); verdict = $(NF - 2); all[cell]++; n[cell, verdict]++; sum[verdict]++; total++ }
  END {
    split("credited unexposable untestable aborted", verdicts, " ")
    printf "\n%-20s %10s", "cell", "defects"
    for (k = 1; k <= 4; k++) printf " %12s", verdicts[k]
    print ""
    for (cell in all) {
      line = sprintf("%-20s %10d", cell, all[cell])
      for (k = 1; k <= 4; k++) line = line sprintf(" %12d", n[cell, verdicts[k]])
      print line | "sort"
    }
    close("sort")
    printf "%-20s %10d", "all", total
    for (k = 1; k <= 4; k++) printf " %12d", sum[verdicts[k]]
    print ""
  }'
exit $status
