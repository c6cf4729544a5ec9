#!/usr/bin/env bash
# Times the statements on a netlist of 16,384 nets of long, alike names, as many gates of 16 inputs and 131,072 ticks, and prints for each kind
# the nanoseconds of a call: additions, moves, ticks set and taken away, deletions from the end of a list and from its front, and a copy.
# The program main.rt.txt is built beside copies of the crates in a temporary folder, and is not proved.
# Use: bench/netlist/run.sh [COMMAND], where COMMAND runs the toolchain (rt if left out).
set -eu
rt=${1:-rt}
here=$(cd "$(dirname "$0")" && pwd)
top=$(cd "$here/../.." && pwd)
work=$(mktemp -d)
trap 'rm -rf "$work"' EXIT
mkdir -p "$work/crates/netlist_times/src"
crates='cyc_text cell_arcs netlist_model'
for crate in $crates; do
    mkdir "$work/crates/$crate"
    for part in src specs proofs; do cp -r "$top/crates/$crate/$part" "$work/crates/$crate/"; done
    grep "^$crate[: ]" "$top/crates.txt" >> "$work/crates.txt"
done
echo 'netlist_times: netlist_model cell_arcs cyc_text' >> "$work/crates.txt"
cp "$top/HANDLES" "$work/"
cp "$here/main.rt.txt" "$work/crates/netlist_times/src/main.rt"
cd "$work/crates/netlist_times"
"$rt" try --seconds 600
