#!/usr/bin/env bash
# Times the search of the period, the first weights and the arrivals, and prints for each system its kind, events, rules,
# the microseconds of `greatest`, `first_weights` and `Plain.arrivals`, the period, the cycle's length, whether the first
# weights already were the arrivals, and for each of the three times its ratio to the size before and the exponent of
# growth in the rules. The program is built beside copies of the crates in a temporary folder, and is not proved: it is a
# build with checks, some hundred times slower than the optimized one, so the exponents count and not the times.
# Use: bench/cycle_ratio/run.sh [SIZES [COMMAND]], with how many sizes of each kind (3 if left out, 5 at most; each twice
# the one before) and the command that runs the toolchain (rt if left out).
set -eu
sizes=${1:-3}
rt=${2:-rt}
top=$(cd "$(dirname "$0")/../.." && pwd)
work=$(mktemp -d)
trap 'rm -rf "$work"' EXIT
mkdir -p "$work/crates/period_times/src"
for crate in cyc_num rule_system first_cycle potentials cycle_ratio; do
    mkdir "$work/crates/$crate"
    for part in src specs proofs; do cp -r "$top/crates/$crate/$part" "$work/crates/$crate/"; done
done
{
    grep -E '^(cyc_num|rule_system|first_cycle|potentials|cycle_ratio)[ :]' "$top/crates.txt"
    echo 'period_times: anyhow cyc_num cycle_ratio potentials rule_system'
} > "$work/crates.txt"
cp "$top/HANDLES" "$work/"
sed "s/const SIZES: u32 = 3;/const SIZES: u32 = $sizes;/" "$top/bench/cycle_ratio/main.rt.txt" > "$work/crates/period_times/src/main.rt"
cd "$work/crates/period_times"
"$rt" try --seconds 600 | awk '
    function grown(now, before) { return before > 0 && now > 0 ? sprintf(" x%.2f(%.2f)", now / before, log(now / before) / log($3 / rules)) : " -" }
    $4 ~ /^[0-9]+$/ {
        if ($1 != kind) { a = 0; b = 0; c = 0 }
        print $0 grown($4, a) grown($5, b) grown($6, c)
        kind = $1; rules = $3; a = $4; b = $5; c = $6; next
    }
    { print }'
