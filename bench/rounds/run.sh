#!/usr/bin/env bash
# Times analyse on systems of 64 to 32,768 events with four rules an event, with arrivals by rounds of 1, 2, 4 and 64 workers
# and by the maker without rounds. It prints for each the microseconds of the shortest of five calls, and its ratio to one
# worker's in hundredths. It takes some minutes, and much longer where nothing was proved before.
# The program main.rt.txt is proved, with rules.antt.txt, and built beside copies of the crates in a temporary folder: the
# checks of a build without proof would slow threads down.
# Use: bench/rounds/run.sh [COMMAND], where COMMAND runs the toolchain (rt if left out).
set -eu
rt=${1:-rt}
here=$(cd "$(dirname "$0")" && pwd)
top=$(cd "$here/../.." && pwd)
work=$(mktemp -d)
trap 'rm -rf "$work"' EXIT
crates='cyc_num cyc_text cyc_port rule_system first_cycle liveness_check potentials cycle_ratio fork_slack analysis'
for crate in $crates arrival_words relax_rounds; do
    mkdir -p "$work/crates/$crate"
    for part in src specs proofs; do cp -r "$top/crates/$crate/$part" "$work/crates/$crate/"; done
    grep "^$crate[: ]" "$top/crates.txt" >> "$work/crates.txt"
done
echo 'round_times: analysis cyc_port potentials relax_rounds rule_system' >> "$work/crates.txt"
cp "$top/HANDLES" "$work/"
mkdir -p "$work/crates/round_times/src" "$work/crates/round_times/proofs/rules"
cp "$here/main.rt.txt" "$work/crates/round_times/src/main.rt"
cp "$here/rules.antt.txt" "$work/crates/round_times/proofs/rules/Invariants.antt"
cd "$work/crates/round_times"
"$rt" run > run.log 2>&1 || { cat run.log; exit 1; }
grep -E '^ +[0-9a-z]+ (worker|workers|rounds) |^[0-9]+ events$' run.log
