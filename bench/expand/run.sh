#!/usr/bin/env bash
# Times `expand` on files that it makes, and prints for each its kind, bytes, milliseconds (the fastest of three runs), the same for a
# word count of the file by the system's `wc`, their ratio, and the exponent of growth in bytes from the size before.
# Rings in order and shuffled, cells of 16 inputs up to 131,072 rules, files of 800,000 ticks, comments, blank lines, one line.
# Use: bench/expand/run.sh [PROGRAM], where PROGRAM is the built program (crates/cyclone/out/cyclone if left out).
set -eu
top=$(cd "$(dirname "$0")/../.." && pwd)
program=$(readlink -f "${1:-$top/crates/cyclone/out/cyclone}")
work=$(mktemp -d)
trap 'rm -rf "$work"' EXIT
cd "$work"

awk 'BEGIN {
    print "[cell.INV]\ninputs = [\"A\"]\noutput = \"Z\"\narcs = [{ from = \"A\", sense = \"neg\", rise = 12, fall = 10 }]"
    print "[cell.N16]\noutput = \"Z\""
    printf "inputs = ["; for (i = 0; i < 16; i++) printf "\"I%d\", ", i; print "]"
    printf "arcs = ["; for (i = 0; i < 16; i++) printf "{ from = \"I%d\", sense = \"non\", rise = 7, fall = 5 }, ", i; print "]"
}' > lib.toml

ring() {
    awk -v n="$1" -v shuffle="$2" 'BEGIN {
        srand(7)
        for (i = 0; i < n; i++) place[i] = i
        if (shuffle) for (i = n - 1; i > 0; i--) { j = int(rand() * (i + 1)); t = place[i]; place[i] = place[j]; place[j] = t }
        for (i = 0; i < n; i++) print "net n" place[i]
        for (i = 0; i < n; i++) print "inst i" place[i] " INV A=n" place[i] " Z=n" (place[i] + 1) % n
        print "tick n0- n1+ 1\nroot n0+"
    }'
}

wide() {
    awk -v n="$1" 'BEGIN {
        for (j = 0; j < n; j++) print "net m" j
        for (j = 0; j < n; j++) {
            printf "inst g%d N16 Z=m%d", j, j
            for (i = 0; i < 16; i++) printf " I%d=m%d", i, (j + n - 1) % n
            print ""
        }
    }'
}

ticks() {
    awk -v n="$1" 'BEGIN {
        for (j = 0; j < 1024; j++) print "net m" j
        for (k = 0; k < n; k++) printf "tick m%d+ m%d- 1\n", k % 1024, int(k / 1024)
    }'
}

milliseconds() {
    local best= start end
    for _ in 1 2 3; do
        start=$(date +%s%N)
        "$@" > /dev/null || true
        end=$(date +%s%N)
        if [ -z "$best" ] || [ $((end - start)) -lt "$best" ]; then best=$((end - start)); fi
    done
    echo "$best" | awk '{ printf "%.1f", $1 / 1000000 }'
}

row() {
    local bytes ours theirs
    bytes=$(stat -c %s "$2")
    ours=$(milliseconds "$program" expand lib.toml "$2")
    theirs=$(milliseconds wc -w "$2")
    echo "$1 $bytes $ours $theirs"
}

for n in 1024 4096 16384; do ring $n 0 > ring$n.net; row ring ring$n.net; done > rows
for n in 1024 4096 16384; do ring $n 1 > shuffled$n.net; row shuffled shuffled$n.net; done >> rows
for n in 128 512 2048; do wide $n > wide$n.net; row wide wide$n.net; done >> rows
for n in 50000 200000 800000; do ticks $n > ticks$n.net; row ticks ticks$n.net; done >> rows
for n in 1048576 4194304 16777216; do
    head -c $((n - 1)) /dev/zero | tr '\0' '#' > comment$n.net; row comment comment$n.net
done >> rows
for n in 1048576 4194304 16777216; do
    head -c $n /dev/zero | tr '\0' '\n' > blank$n.net; row blank blank$n.net
done >> rows
for n in 1048576 4194304 16777216; do
    { echo "net A"; printf 'inst i N16'; awk -v n=$((n / 4 - 8)) 'BEGIN { for (i = 0; i < n; i++) printf " A=A" }'; } > line$n.net; row line line$n.net
done >> rows

awk 'BEGIN { printf "%-9s %9s %10s %8s %7s %9s\n", "kind", "bytes", "expand ms", "wc ms", "ratio", "exponent" }
{
    grown = $1 == kind ? sprintf("%.2f", log($3 / before) / log($2 / bytes)) : "-"
    printf "%-9s %9d %10.1f %8.1f %7.1f %9s\n", $1, $2, $3, $4, $3 / $4, grown
    kind = $1; bytes = $2; before = $3
}' rows
