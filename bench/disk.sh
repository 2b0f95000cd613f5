#!/usr/bin/env bash
# Usage: bench/disk.sh [FOLDER [RUNS [ROUNDS]]]
# Times a disk over a file against the same calls from C: 1,000 rounds of one write of 4,096 bytes
# and one sync, on a new file in the folder, 10 runs of each by turns. Prints the milliseconds of
# each run, then the least and the middle of each and how the program's compares with C's.
set -u
root=$(CDPATH='' cd -- "$(dirname -- "$0")/.." && pwd) || exit 1
folder=${1:-$root/bench/work}
runs=${2:-10}
rounds=${3:-1000}
program=$root/crates/benches/out/benches
work=$root/bench/work
if [ ! -x "$program" ]; then
    echo "no program at $program: build it by 'rt run -- disk pages 5' in crates/benches" >&2
    exit 1
fi
mkdir -p "$work" "$folder" || exit 1
cc -O2 -o "$work/disk_c" "$root/bench/disk.c" || exit 1
export LC_ALL=C
pages=$folder/bench_disk.pages

# Prints the milliseconds of one run of a program, whose words these are but for the last ones.
timed() {
    local start end length wanted
    wanted=$(((rounds < 256 ? rounds : 256) * 4096))
    rm -f "$pages"
    start=$(date +%s%N)
    length=$("$@" "$pages" "$rounds") || { echo "$1 failed" >&2; exit 1; }
    end=$(date +%s%N)
    [ "$length" = "$wanted" ] || { echo "$1: a length of $length" >&2; exit 1; }
    echo $(((end - start) / 1000)) | awk '{ printf "%.2f\n", $1 / 1000 }'
}

: > "$work/disk_ours"
: > "$work/disk_c_times"
for ((run = 0; run < runs; run++)); do
    if ((run % 2)); then
        there=$(timed "$work/disk_c") || exit 1
        ours=$(timed "$program" disk) || exit 1
    else
        ours=$(timed "$program" disk) || exit 1
        there=$(timed "$work/disk_c") || exit 1
    fi
    echo "$ours" >> "$work/disk_ours"
    echo "$there" >> "$work/disk_c_times"
    printf 'disk %10s ms    C %10s ms\n' "$ours" "$there"
done
rm -f "$pages"
paste <(sort -n "$work/disk_ours") <(sort -n "$work/disk_c_times") | awk '
    { ours[NR] = $1; there[NR] = $2 }
    function compared(name, i) {
        form = "%s: disk %.2f ms, C %.2f ms, ratio %.3f\n"
        printf form, name, ours[i], there[i], ours[i] / there[i]
    }
    END {
        compared("least", 1)
        compared("middle", int((NR + 1) / 2))
    }'
