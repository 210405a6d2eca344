#!/bin/sh
# Tries a command of cellaware with one request for memory refused, for the first request, the second and so on, until a run
# asks for fewer: each run has to end as without a refusal, or with `out of memory`, status 5, nothing printed and no file written.
# usage: tools/refuse_memory.sh PROGRAM OUT WORD..    OUT is the file that the command writes, or the files with a comma between two, or - where
#                                                     it writes none
#        tools/refuse_memory.sh PROGRAM               every command, on small inputs of examples/, in a scratch folder
# Needs cc. It prints how many requests there are, and each run that ended otherwise; of every command a line, and the words after it.
# The status is 1 where a run ended otherwise.
set -u
if [ $# -lt 1 ]; then
    sed -n '4,6p' "$0" | cut -c3- >&2
    exit 1
fi
program=$(realpath "$(command -v "$1")")
here=$(realpath "$(dirname "$0")")
if [ $# -eq 1 ]; then
    work=$(mktemp -d)
    trap 'rm -rf "$work"' EXIT
    cp "$here"/../examples/* "$work" && cd "$work" || exit 1
    "$program" certify cells.sp inv.v - in.stil in.cert 3 > /dev/null || exit 1
    printf 'pair,output\n0,z\n' > in.log
    wrong=0
    # (a line is OUT and the words)
    while read -r line; do
        found=$("$here/refuse_memory.sh" "$program" $line) || wrong=1
        echo "$found"
        echo "  refuse_memory.sh PROGRAM $line"
    done << 'COMMANDS'
m.csv matrix nand2.sp NAND2 m.csv
f.sp flatten cells.sp inv.v - - - f.sp
p.stil,r.csv atpg cells.sp inv.v - p.stil r.csv 3
p.stil,r.csv atpg fa28.sp acc.v scan.csv p.stil r.csv 3
p.stil,r.csv strengths strengths.csv atpg cells.sp inv.v - p.stil r.csv 3
g.csv grade cells.sp inv.v - in.stil g.csv
c.csv diagnose cells.sp inv.v - in.stil in.log c.csv
p.stil,c.cert certify cells.sp inv.v - p.stil c.cert 3
p.stil,b.csv bridges cells.sp c17.v - g4 p.stil b.csv 3
- verify cells.sp inv.v - in.stil in.cert
- respond nand2.sp NAND2 11
- pair nand2.sp NAND2 11 01 MP1(D)
- defects nand2.sp NAND2
- check cells.sp c17.v -
- simulate cells.sp inv.v - u1 MP1(S) 1 0
- replay cells.sp glitch.v - u5 MP1(D) 111 001 falls.order
- make 3
COMMANDS
    exit $wrong
fi
outs=$(echo "$2" | tr ',' ' ')
[ "$2" = - ] && outs=
shift 2
work=$(mktemp -d)
trap 'rm -rf "$work"' EXIT
cc -shared -fPIC -O2 -o "$work/refuse.so" "$here/refuse_memory.c" -ldl || exit 1

"$program" "$@" > "$work/wanted"
wanted_status=$?
for out in $outs; do cp "$out" "$work/wanted-$(basename "$out")"; done

# Whether no file is there.
none_is_there() {
    for out in $outs; do [ ! -e "$out" ] || return 1; done
}

# Whether each file is as without a refusal.
are_as_wanted() {
    for out in $outs; do cmp -s "$out" "$work/wanted-$(basename "$out")" || return 1; done
}

number=1
refused=0
wrong=0
last=0
while [ "$last" -lt 3 ] && [ "$number" -lt 100000 ]; do
    for out in $outs; do rm -f "$out"; done
    REFUSE=$number LD_PRELOAD="$work/refuse.so" "$program" "$@" > "$work/printed" 2> "$work/told"
    status=$?
    if [ "$status" -eq 5 ] && [ ! -s "$work/printed" ] && none_is_there \
        && [ "$(cat "$work/told")" = "cellaware: out of memory" ]; then
        refused=$((refused + 1))
        last=0
    elif [ "$status" -eq "$wanted_status" ] && cmp -s "$work/printed" "$work/wanted" \
        && are_as_wanted; then
        last=$((last + 1))
    else
        wrong=$((wrong + 1))
        echo "request $number: status $status, $(wc -c < "$work/printed") bytes printed, $(cat "$work/told")"
    fi
    number=$((number + 1))
done
echo "out of memory $refused times, otherwise than wanted $wrong times"
[ "$wrong" = 0 ]
