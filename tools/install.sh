#!/usr/bin/env bash
# Puts the built program, its man page, the tools and the examples below PREFIX.
#
# usage: install.sh PREFIX
#
# PREFIX/bin gets `cellaware`, PREFIX/share/man/man1 its page, PREFIX/share/cellaware the tools, examples, documents and
# what docs/REAL_CHIPS.md takes from bench/, so that this folder may stand for the clone on that page.
# The program has to be built before: `rt run` in crates/cellaware, or `rt ci` at the top of the repository. At the end
# it says which other programs the tools need and don't find; the program itself needs none.
set -u
if [ $# -ne 1 ]; then
  sed -n '2,4p' "$0" | cut -c3- >&2
  exit 1
fi
top=$(cd "$(dirname "$0")/.." && pwd) prefix=$1
program=$top/crates/cellaware/out/cellaware
if [ ! -x "$program" ]; then
  echo "install.sh: $program is missing: build it by rt run in crates/cellaware" >&2
  exit 1
fi
set -e
mkdir -p "$prefix/bin" "$prefix/share/man/man1" "$prefix/share/cellaware"
install -m 755 "$program" "$prefix/bin/cellaware"
install -m 644 "$top/docs/cellaware.1" "$prefix/share/man/man1/cellaware.1"
cp -R "$top/tools" "$top/examples" "$top/docs" "$top/bench" "$top/README.md" "$prefix/share/cellaware/"
"$prefix/bin/cellaware" --version
echo "installed below $prefix"
for it in python3:"most tools" gnuplot:"pictures" yosys:"mapping designs" iverilog:"playing patterns" \
  parallel:"blocks.sh" ngspice:"ngspice_deck.sh" cc:"refuse_memory.sh"; do
  command -v "${it%%:*}" > /dev/null || echo "not found: ${it%%:*} (for ${it#*:})"
done
