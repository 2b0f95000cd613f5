#!/usr/bin/env bash
# Usage: bench/lines.sh [EXECUTABLE]
# Counts the instructions that a line of a script takes in `tunes list`, beside the same script in
# plain code (bench/lines.c): those of a script of 2,000 lines less those of 1,000, for each line.
# The replies of both are compared. It asks for valgrind and a C compiler.
set -u
root=$(CDPATH='' cd -- "$(dirname -- "$0")/.." && pwd) || exit 1
program=${1:-$root/crates/tunes/out/tunes}
work=$root/bench/work
[ -x "$program" ] || {
    echo "no program at $program: build it by ./tunes list < /dev/null" >&2
    exit 1
}
mkdir -p "$work" || exit 1
cc -O2 -o "$work/lines_c" "$root/bench/lines.c" || exit 1
export LC_ALL=C

# Prints an import of one tune of 51 bytes, and so many lines of this kind.
make() {
    awk -v what="$1" -v count="$2" '
        function repeated(part, times,    s) { while (times-- > 0) s = s part; return s }
        BEGIN {
            body = "T:Tune 00001\nM:4/4\nR:reel\nK:G\nGABc dedB|c2ec B2dB|\n"
            printf "import %d\nX:1\n%s", 4 + length(body), body
            line = "show 1"
            if (what == "unknown") line = "show 2"
            if (what == "word") line = repeated("a", 4095)
            if (what == "words") line = repeated("a ", 2047) "a"
            if (what == "blanks") line = repeated(" ", 4095)
            while (count-- > 0) print line
        }'
}

# Leaves in `spent` the instructions of this command over the script.
instructions() {
    valgrind --tool=callgrind --callgrind-out-file=/dev/null "$@" < "$work/script" \
        > "$work/replies" 2> "$work/errors" || { cat "$work/errors" >&2; exit 1; }
    spent=$(awk '/Collected/ { print $4 }' "$work/errors")
}

# Leaves in `each` what a line of this kind takes.
line() {
    local what=$1 less
    shift
    make "$what" 1000 > "$work/script"
    instructions "$@"
    less=$spent
    make "$what" 2000 > "$work/script"
    instructions "$@"
    each=$(((spent - less) / 1000))
}

printf '%-36s %8s %8s %6s\n' 'a line' tunes C ratio
measure() {
    local name=$1 what=$2 ours
    line "$what" "$program" list
    ours=$each
    cp "$work/replies" "$work/wanted"
    line "$what" "$work/lines_c"
    if ! cmp "$work/replies" "$work/wanted" >&2; then
        echo "$name: the replies differ" >&2
        exit 1
    fi
    awk -v name="$name" -v ours="$ours" -v there="$each" 'BEGIN {
        printf "%-36s %8d %8d %6.2f\n", name, ours, there, ours / there
    }'
}

measure 'show 1, a tune of 51 bytes' show
measure 'show 2, which no tune has' unknown
measure '4,095 bytes of one word' word
measure '4,095 bytes of 2,048 words' words
measure '4,095 spaces' blanks
