#!/usr/bin/env bash
# Refuses the program one growth of its memory at a time: the first, then the second alone, and so on to the last. Goes over a
# report, the rules, edits, a ring, sessions, and one refusal of each status, and prints for each how many growths there are, how many
# refused ones ended with status 8, and how many with the run's own status. Status 8 must come with an empty output, any other status
# must be the run's own with the run's own output, behind the first line of two sessions, whose order is free; and each run must end
# within a minute. Where one does not, the script says so, and ends with 1.
# It needs a C compiler (cc), which builds a stand-in for the allocator of the C library in a temporary folder.
# Use: bench/memory/run.sh [PROGRAM], where PROGRAM is the built program (crates/cyclone/out/cyclone if left out).
set -eu
top=$(cd "$(dirname "$0")/../.." && pwd)
program=$(readlink -f "${1:-$top/crates/cyclone/out/cyclone}")
work=$(mktemp -d)
trap 'rm -rf "$work"' EXIT
cp "$top"/examples/*.net "$top"/examples/*.txt "$top"/examples/*.edits "$top/examples/lib.toml" "$work"
cd "$work"
cat > refuse.c <<'C'
#define _GNU_SOURCE
#include <dlfcn.h>
#include <fcntl.h>
#include <stdlib.h>
#include <unistd.h>
/* Refuses the call of the number in REFUSE_AT, and leaves a file `refused` behind where it came to that. */
static long count, at = -1;
static int is_refused(void) {
    if (at < 0) { const char *word = getenv("REFUSE_AT"); at = word ? atol(word) : 0; }
    if (__atomic_add_fetch(&count, 1, __ATOMIC_SEQ_CST) != at) return 0;
    close(open("refused", O_CREAT | O_WRONLY, 0600));
    return 1;
}
void *malloc(size_t size) {
    static void *(*real)(size_t);
    if (!real) real = (void *(*)(size_t))dlsym(RTLD_NEXT, "malloc");
    return is_refused() ? NULL : real(size);
}
void *realloc(void *old, size_t size) {
    static void *(*real)(void *, size_t);
    if (!real) real = (void *(*)(void *, size_t))dlsym(RTLD_NEXT, "realloc");
    return is_refused() ? NULL : real(old, size);
}
C
cc -shared -fPIC -O1 -o refuse.so refuse.c -ldl
printf 'x = ' > broken.toml
printf '%s\n' pin period 'delay i1 A 15 10' draft drop cycle 'pin 1' > first.txt
printf '%s\n' 'arrival A-' pin 'net D' publish 'slack f' report rebase > second.txt
printf '%s\n' pin 'publish now' > faulty.txt
broken=0
# Leaves the order of two sessions out.
replies() {
    if grep -q '^session 2$' "$1"; then sed -i 1d "$1"; fi
}
row() {
    local own=0 growths=0 status eights=0 owns=0
    "$program" "$@" > own || own=$?
    replies own
    while :; do
        status=0; rm -f refused
        LD_PRELOAD=./refuse.so REFUSE_AT=$((growths + 1)) timeout 60 "$program" "$@" > out || status=$?
        [ -e refused ] || break
        replies out
        growths=$((growths + 1))
        if [ "$status" = 8 ] && [ ! -s out ]; then eights=$((eights + 1))
        elif [ "$status" = "$own" ] && cmp -s out own; then owns=$((owns + 1))
        else echo "BROKEN: $*: growth $growths refused: status $status"; broken=1
        fi
    done
    printf '%-46s status %d, growths %4d: status 8 %4d, its own %d\n' "$*" "$own" "$growths" "$eights" "$owns"
}
row analyze lib.toml ring.net
row analyze lib.toml ring_forks.net
row analyze lib.toml bundled.net
row expand lib.toml every_line.net
row analyze lib.toml
row analyze broken.toml ring.net
row expand lib.toml lib.toml
row analyze lib.toml ring_undriven.net
row analyze lib.toml ring_probe.net
row analyze lib.toml ring_no_tick.net
row analyze lib.toml none.net
row apply lib.toml pipeline3.net pipeline3.edits
row apply lib.toml ring.net pipeline3.edits
row bench 3
row bench 3 --workers 3
row serve lib.toml ring.net one.txt
row serve lib.toml ring.net first.txt second.txt
row serve lib.toml ring.net --workers 2 first.txt second.txt
row serve lib.toml ring.net first.txt faulty.txt
row serve lib.toml ring_no_tick.net first.txt
exit $broken
