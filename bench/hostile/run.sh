#!/usr/bin/env bash
# Runs the five commands on hostile words, files, limits and standard outputs, and prints for each kind the runs, the slowest in
# milliseconds, the greatest resident memory in megabytes and, for files of a megabyte or more, that as a multiple of the bytes read.
# A small library, two small netlists, a file of edits, three scripts and the words of `bench` and `serve` are cut at every byte, and each
# byte of them is replaced by each of nine; the other files have up to one byte more than the longest that is read. Some runs get little
# memory or few open files. The last lines tell the number of runs, the slowest and the most memory.
# Each run must end by itself within two minutes with a status of the table (0, 2 to 8) that its kind allows, must leave standard error
# empty, and must have written what the status stands for: with 0 a whole text, with 2 to 6 one fault line with that status's front, with 7
# a part from the front of the text, with 8 nothing; and a file that is read stays as it was. Each run that breaks a rule is told, and the
# script ends with 1.
# The memory of this script's own Python is the least that is seen of any run. It takes some minutes.
# Use: bench/hostile/run.sh [PROGRAM [GROUP...]], where PROGRAM is the built program (crates/cyclone/out/cyclone if left out), and each GROUP
# one of small, calls, words, outputs, limits, edits, scripts, netlists, libraries (all of them if left out).
set -eu
top=$(cd "$(dirname "$0")/../.." && pwd)
program=$(readlink -f "${1:-$top/crates/cyclone/out/cyclone}")
shift || true
work=$(mktemp -d)
trap 'rm -rf "$work"' EXIT
cd "$work"
python3 -B "$top/bench/hostile/cases.py" "$program" "$@"
