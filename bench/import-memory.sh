#!/usr/bin/env bash
# Usage: bench/import-memory.sh [EXECUTABLE]
# Imports books of some two to three megabytes to a new file each, of many short tunes up to few
# long ones, and prints how many tunes and bytes each has, the seconds that the import took, and the
# most memory that it held at once, in kilobytes.
set -u
root=$(CDPATH='' cd -- "$(dirname -- "$0")/.." && pwd) || exit 1
program=${1:-$root/crates/tunes/out/tunes}
work=$root/bench/work
[ -x "$program" ] || {
    echo "no program at $program: build it by ./tunes list < /dev/null" >&2
    exit 1
}
mkdir -p "$work" || exit 1
file=$work/import_memory.tunes
export LC_ALL=C
trap 'rm -f "$file"' EXIT

# Prints a book of so many tunes, each with so many lines of music.
book() {
    awk -v tunes="$1" -v lines="$2" 'BEGIN {
        for (n = 1; n <= tunes; n++) {
            printf "X:1\nT:The Tune %05d\nR:reel\nM:4/4\nL:1/8\nK:G\n", n
            for (line = 0; line < lines; line++) print "GABc dedB|c2ec B2dB|GABc dedB|c2ec B2dB|"
            print ""
        }
    }'
}

# Imports a book of so many tunes, each with so many lines of music, and compares the reply.
measure() {
    local reply bytes
    book "$1" "$2" > "$work/book"
    bytes=$(wc -c < "$work/book")
    { printf 'import %d\n' "$bytes"; cat "$work/book"; } > "$work/script"
    rm -f "$file"
    "$program" make "$file" > /dev/null || exit 1
    reply=$(/usr/bin/time -f '%e %M' -o "$work/seconds" "$program" run "$file" < "$work/script")
    if [ "$reply" != "ok import 1 $1" ]; then
        echo "$1 tunes: the reply is '$reply'" >&2
        exit 1
    fi
    printf '%8d %10d %s\n' "$1" "$bytes" "$(cat "$work/seconds")"
}

echo 'tunes, bytes of the book, seconds, kilobytes'
measure 20000 2
measure 5000 14
measure 1000 80
measure 400 200
