#!/usr/bin/env bash
# Tries the planted bugs of bugs/ and the must-fail edits of the same crates: each is put into the code alone, and the proofs must refuse it.
#
#   tools/try_bugs.sh                  # of all crates that have some
#   tools/try_bugs.sh ca_net ca_lex    # of these
#
# It works on a copy of what is committed, in which a crate's bugs are beside its must-fail edits, and
# `rt ci CRATE ..` tries them. A crate that `rt ci` has passed on this machine isn't proved again, and what
# was tried is kept until something that it depends on changes, crate by crate: so a call that was broken off
# goes on where it stopped. A crate costs one more proof of it, and each bug some ten seconds to half a minute
# of a processor.
# What isn't refused is listed. The last line counts the bugs that were refused and those that weren't; the status is 0 where all were.
set -eu

top=$(cd "$(dirname "$0")/.." && pwd)
copy=${TMPDIR:-/tmp}/try_bugs
log=$copy.log

if [ $# -gt 0 ]; then
    crates=("$@")
else
    crates=()
    while read -r crate _; do
        crate=${crate%:}
        if [ -z "$crate" ]; then
            continue
        fi
        if [ -d "$top/bugs/$crate" ] || [ -d "$top/crates/$crate/must-fail" ]; then
            crates+=("$crate")
        fi
    done < <(grep -v '^#' "$top/crates.txt")
fi

rm -rf "$copy"
mkdir -p "$copy"
git -C "$top" archive HEAD | tar -x -C "$copy"
rm -rf "$copy"/crates/*/must-fail
wanted=0
for crate in "${crates[@]}"; do
    mkdir -p "$copy/crates/$crate/must-fail"
    for edit in "$top/bugs/$crate"/*.edit "$top/crates/$crate/must-fail"/*.edit; do
        if [ -e "$edit" ]; then
            cp "$edit" "$copy/crates/$crate/must-fail/"
        fi
    done
    found=$(find "$copy/crates/$crate/must-fail" -name '*.edit' | wc -l)
    wanted=$((wanted + found))
done

cd "$copy"
rt ci "${crates[@]}" >"$log" 2>&1 || true
grep 'must-fail .*: ' "$log" | grep -v 'refused, as it must be' || true
passed=$(grep -c 'must-fail .*: refused, as it must be' "$log" || true)
echo "$passed passed, $((wanted - passed)) failed"
[ "$passed" -eq "$wanted" ]
