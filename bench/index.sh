#!/usr/bin/env bash
# Usage: bench/index.sh [FOLDER [RUNS [FEW [MANY [ROUNDS]]]]]
# Times indexes of keys of 32 bytes against the same calls of the disk from C: 20,000 entries put
# into an index at once (from C: sorted, and written once), 160,000 put into new pages and loaded,
# 1,000 looks for 100 values among them, 1,000 entries put in, each in a work of its own, and 1,000
# copies of five indexes of 20,000 entries over others (from C: moves of their bytes), on a new file
# in the folder, 5 runs of each by turns. C reads for `load`; for `keep`, with which the same load
# is compared, it compares and keeps what it reads too. Prints the milliseconds of each part, the
# least and the middle of each, and how the program's compare with C's; and the same in memory.
set -u
root=$(CDPATH='' cd -- "$(dirname -- "$0")/.." && pwd) || exit 1
folder=${1:-$root/bench/work}
runs=${2:-5}
few=${3:-20000}
many=${4:-160000}
rounds=${5:-1000}
program=$root/crates/benches/out/benches
work=$root/bench/work
if [ ! -x "$program" ]; then
    echo "no program at $program: build it by 'rt run -- disk pages 5' in crates/benches" >&2
    exit 1
fi
mkdir -p "$work" "$folder" || exit 1
cc -O2 -o "$work/index_c" "$root/bench/index.c" || exit 1
export LC_ALL=C
pages=$folder/bench_index.pages

# Puts the lines of one run behind a file: whose run, part, what it came to, microseconds.
timed() {
    local name=$1
    shift
    rm -f "$pages"
    "$@" > "$work/index_run" || { echo "$name failed" >&2; exit 1; }
    sed "s/^/$name /" "$work/index_run" >> "$work/index_times"
}

ours() { timed ours "$program" index file "$pages" "$few" "$many" "$rounds" times; }
from_c() { timed c "$work/index_c" "$pages" "$work/index_calls" "$few" "$rounds"; }
in_memory() { timed memory "$program" index memory "$few" "$many" "$rounds" times; }

rm -f "$pages"
"$program" index file "$pages" "$few" "$many" "$rounds" calls > "$work/index_calls" || exit 1
: > "$work/index_times"
for ((run = 0; run < runs; run++)); do
    if ((run % 2)); then
        from_c
        ours
    else
        ours
        from_c
    fi
    in_memory
done
rm -f "$pages"

awk '{ print $2, $3 }' "$work/index_times" | sort -u | awk '
    { seen[$1]++ }
    END { for (part in seen) if (seen[part] > 1) { print part " came to two things"; exit 1 } }
' || exit 1
sort -k2,2 -k1,1 -k4,4n "$work/index_times" | awk '
    { spent[$1 " " $2, ++n[$1 " " $2]] = $4 / 1000 }
    function least(name) { return spent[name, 1] }
    function middle(name) { return spent[name, int((n[name] + 1) / 2)] }
    END {
        form = "%-6s %s: index %9.2f ms, C %9.2f ms, ratio %.3f; in memory %9.2f ms\n"
        split("build fill load keep find add copy", order)
        for (i = 1; i <= 7; i++) {
            a = order[i] == "keep" ? "load" : order[i]
            b = "c " order[i]; m = "memory " a; a = "ours " a
            printf form, order[i], "least ", least(a), least(b), least(a) / least(b), least(m)
            printf form, order[i], "middle", middle(a), middle(b), middle(a) / middle(b), middle(m)
        }
    }'
