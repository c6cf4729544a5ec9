#!/usr/bin/env bash
# Times analyse on systems of 1,024 to 32,768 events with four rules an event, and at the largest with forks of 1 to 64
# different roots, and prints for each the microseconds of a call, and for the roots those for each further one.
# It takes some minutes.
# The program main.rt.txt is built beside copies of the crates in a temporary folder, and is not proved.
# Use: bench/analysis/run.sh [COMMAND], where COMMAND runs the toolchain (rt if left out).
set -eu
rt=${1:-rt}
here=$(cd "$(dirname "$0")" && pwd)
top=$(cd "$here/../.." && pwd)
work=$(mktemp -d)
trap 'rm -rf "$work"' EXIT
mkdir -p "$work/crates/analysis_times/src"
crates='cyc_num rule_system first_cycle liveness_check potentials cycle_ratio fork_slack analysis'
for crate in $crates; do
    mkdir "$work/crates/$crate"
    for part in src specs proofs; do cp -r "$top/crates/$crate/$part" "$work/crates/$crate/"; done
    grep "^$crate[: ]" "$top/crates.txt" >> "$work/crates.txt"
done
echo 'analysis_times: analysis fork_slack potentials rule_system' >> "$work/crates.txt"
cp "$top/HANDLES" "$work/"
cp "$here/main.rt.txt" "$work/crates/analysis_times/src/main.rt"
cd "$work/crates/analysis_times"
"$rt" try --seconds 600
