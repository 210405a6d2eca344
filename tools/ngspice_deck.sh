#!/bin/sh
# Prints an ngspice deck of a flat network, as `cellaware flatten` writes it, with the chip inputs at these values:
#   tools/ngspice_deck.sh flat.sp 101010101 > deck.cir; ngspice -b deck.cir
# The values are those of the nodes from 2 on, in order. Power is at 1 V, and the transistors have the simplest model.
set -eu
flat=$1 values=$2
echo "* $flat"
grep -v '^\.SUBCKT\|^\.ENDS' "$flat"
echo '.model NCH nmos level=1 vto=0.3'
echo '.model PCH pmos level=1 vto=-0.3'
echo 'V0 N0 0 1'
echo 'V1 N1 0 0'
node=2
while [ -n "$values" ]; do
    rest=${values#?}
    echo "V$node N$node 0 ${values%"$rest"}"
    values=$rest
    node=$((node + 1))
done
echo '.op'
echo '.end'
