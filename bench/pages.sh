#!/usr/bin/env bash
# Usage: bench/pages.sh [FOLDER [RUNS [CHAINS [WORKS]]]]
# Times pages over a file against the same calls of the disk from C: 20,000 chains of 200 bytes put
# in one work and finished, an opening that claims them, and 1,000 works of one chain each on top,
# on a new file in the folder, 5 runs of each by turns. Prints the milliseconds of each part, the
# least and the middle of each, and how the program's compare with C's; the same parts in memory;
# and the most memory that each run took.
set -u
root=$(CDPATH='' cd -- "$(dirname -- "$0")/.." && pwd) || exit 1
folder=${1:-$root/bench/work}
runs=${2:-5}
chains=${3:-20000}
works=${4:-1000}
program=$root/crates/benches/out/benches
work=$root/bench/work
if [ ! -x "$program" ]; then
    echo "no program at $program: build it by 'rt run -- disk pages 5' in crates/benches" >&2
    exit 1
fi
mkdir -p "$work" "$folder" || exit 1
cc -O2 -o "$work/pages_c" "$root/bench/pages.c" || exit 1
export LC_ALL=C
pages=$folder/bench_pages.pages

# Puts the lines of one run behind a file: whose run, part, what it came to, microseconds.
timed() {
    local name=$1
    shift
    rm -f "$pages"
    "$@" > "$work/pages_run" || { echo "$name failed" >&2; exit 1; }
    sed "s/^/$name /" "$work/pages_run" >> "$work/pages_times"
}

ours() { timed ours "$program" pages file "$pages" "$chains" "$works" times; }
from_c() { timed c "$work/pages_c" "$pages" "$chains" "$works"; }
in_memory() { timed memory "$program" pages memory "$chains" "$works" times; }

: > "$work/pages_times"
for ((run = 0; run < runs; run++)); do
    if ((run % 2)); then
        from_c
        ours
    else
        ours
        from_c
    fi
    in_memory
done
rm -f "$pages"

awk '{ print $2, $3 }' "$work/pages_times" | sort -u | awk '
    { seen[$1]++ }
    END { for (part in seen) if (seen[part] > 1) { print part " came to two things"; exit 1 } }
' || exit 1
sort -k2,2 -k1,1 -k4,4n "$work/pages_times" | awk '
    { spent[$1 " " $2, ++n[$1 " " $2]] = $4 / 1000; parts[$2] }
    function least(name) { return spent[name, 1] }
    function middle(name) { return spent[name, int((n[name] + 1) / 2)] }
    END {
        form = "%-6s %s: pages %9.2f ms, C %9.2f ms, ratio %.3f; in memory %9.2f ms\n"
        split("put claim add", order)
        for (i = 1; i <= 3; i++) {
            a = "ours " order[i]; b = "c " order[i]; m = "memory " order[i]
            printf form, order[i], "least ", least(a), least(b), least(a) / least(b), least(m)
            printf form, order[i], "middle", middle(a), middle(b), middle(a) / middle(b), middle(m)
        }
    }'

time=$(type -P time) || exit 0

# The most memory that a process has, in kB.
most_memory() { "$time" -f %M "$@" 2>&1 > "$work/pages_run" | tail -n 1; }

rm -f "$pages"
none=$(most_memory "$program" pages file "$pages" 0 0)
rm -f "$pages"
all=$(most_memory "$program" pages file "$pages" "$chains" 0)
rm -f "$pages"
echo "memory: $none kB with no chain, $all kB with $chains in one work"
