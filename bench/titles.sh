#!/usr/bin/env bash
# Usage: bench/titles.sh [EXECUTABLE]
# Puts 20,000 titles in the order of an index, by the program `benches`. A line is a text of
# titles, whether rows of them hold what an index shows (`shown`, as those of the command `titles`)
# or not (`rows`), and what one pass takes: the seconds of a run with a pass less those of a run
# without, and in the same way the memory, in MB, where there is a time(1), and the instructions, in
# millions, where valgrind is there (with HOSTILE=yes for the long titles too, which takes minutes).
set -u
root=$(CDPATH='' cd -- "$(dirname -- "$0")/.." && pwd) || exit 1
program=${1:-$root/crates/benches/out/benches}
work=$root/bench/work
[ -x "$program" ] || {
    echo "no program at $program: build it by 'rt run -- disk pages 5' in crates/benches" >&2
    exit 1
}
mkdir -p "$work" || exit 1
export LC_ALL=C

# Titles of a few words each, in no order.
usual() {
    awk 'BEGIN {
        count = split("The A Kesh Morning Star Rakes Mallow Irish Silver Spear", w, " ")
        seed = 7
        for (n = 1; n <= 20000; n++) {
            line = ""
            for (i = 0; i < 3; i++) {
                seed = (seed * 16807) % 2147483647
                line = line w[seed % count + 1] " "
            }
            print line n
        }
    }'
}

# Titles of 15,900 bytes that differ at their ends alone. The first letter of every second one is
# this.
long() {
    awk -v first="$1" 'BEGIN {
        front = "x"
        while (length(front) < 15889) front = front front
        front = substr(front, 1, 15889)
        for (n = 1; n <= 20000; n++) {
            printf "%s", n % 2 ? first : "x"
            printf "%s", front
            printf "%05d%05d\n", (n * 7919) % 20000, n
        }
    }'
}

# Leaves in `spent` the seconds of processor time of so many passes with rows of this kind.
seconds() {
    local TIMEFORMAT=%3U
    { time "$program" titles "$1" "$2" < "$work/titles" > "$work/count" 2> "$work/errors"; } \
        2> "$work/spent"
    spent=$(cat "$work/spent")
}

# Leaves in `spent` the most memory that they take, in kilobytes.
memory() {
    command time -f %M -o "$work/spent" "$program" titles "$1" "$2" \
        < "$work/titles" > "$work/count" 2> "$work/errors" || exit 1
    spent=$(cat "$work/spent")
}

# Leaves in `spent` their instructions.
instructions() {
    valgrind --tool=callgrind --callgrind-out-file=/dev/null "$program" titles "$1" "$2" \
        < "$work/titles" > "$work/count" 2> "$work/errors" || exit 1
    spent=$(awk '/Collected/ { print $4 }' "$work/errors")
}

# Prints in this form what a pass takes more than none, by one of the functions above.
difference() {
    local function=$1 kind=$2 form=$3 part=$4 none
    "$function" "$kind" 0
    none=$spent
    "$function" "$kind" 1
    awk -v form="$form" -v one="$spent" -v none="$none" -v part="$part" \
        'BEGIN { printf form, (one - none) / part }'
}

measure() {
    local name=$1 counts=$2 kind
    for kind in rows shown; do
        printf '%-40s %-6s' "$name" "$kind"
        difference seconds "$kind" ' %8.3f s' 1
        if type -P time > "$work/count"; then
            difference memory "$kind" ' %8.1f MB' 1000
        fi
        if [ "$counts" = yes ] && command -v valgrind > "$work/count"; then
            difference instructions "$kind" ' %10.1f' 1000000
        fi
        echo
    done
}

usual > "$work/titles" || exit 1
measure "usual titles" yes
long x > "$work/titles" || exit 1
measure "15,900 bytes, other at the end" "${HOSTILE:-no}"
long X > "$work/titles" || exit 1
measure "the same, every second with a capital" "${HOSTILE:-no}"
