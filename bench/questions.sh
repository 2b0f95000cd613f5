#!/usr/bin/env bash
# Usage: bench/questions.sh [EXECUTABLE]
# Times finds, titles, and commands on set lists, over 20,000 tunes and 500 set lists of 200 places,
# in memory: milliseconds for one command, beside the import alone. Each is the best of five runs;
# the first lines of the replies are compared with what is wanted.
set -u
root=$(CDPATH='' cd -- "$(dirname -- "$0")/.." && pwd) || exit 1
program=${1:-$root/crates/tunes/out/tunes}
work=$root/bench/work
[ -x "$program" ] || {
    echo "no program at $program: build it by ./tunes list < /dev/null" >&2
    exit 1
}
mkdir -p "$work" || exit 1
export LC_ALL=C

# Prints the commands below: one import of 20,000 tunes, set lists, or `count` commands of one kind.
# Every tenth tune is a jig, every twentieth in E dorian, and every fortieth begins with a fifth.
make() {
    awk -v what="$1" -v count="$2" '
        function body(n,    s) {
            s = sprintf("T:The Tune %05d\nT:Name %05d\nR:%s\nM:4/4\nL:1/8\nK:%s\n", n, 20001 - n,
                n % 10 ? "reel" : "jig", n % 20 ? "G" : "Edor")
            return s (n % 40 ? "GABc" : "GdGd") " dedB|c2ec B2dB|\nGABc dedB|c2ec B2dB|\n"
        }
        BEGIN {
            if (what == "import") {
                for (n = 1; n <= 20000; n++) book = book "X:1\n" body(n) "\n"
                printf "import %d\n%s", length(book), book
            }
            if (what == "sets") {
                for (s = 1; s <= 500; s++) {
                    printf "set-new set%03d\n", s
                    for (p = 1; p <= 200; p++) {
                        printf "set-add set%03d %d\n", s, (s * 37 + p) % 19000 + 1
                    }
                }
            }
            for (i = 1; i <= count; i++) {
                if (what == "title") print "find title the tune 12345"
                if (what == "rhythm") print "find rhythm JIG"
                if (what == "key") print "find key E dorian"
                if (what == "notes") print "find notes GdGd"
                if (what == "all") print "find title tune"
                if (what == "titles") print "titles"
                if (what == "set-add") {
                    if (i % 200 == 1) print "set-new bench" i
                    printf "set-add bench%d %d\n", i - (i - 1) % 200, i
                }
                if (what == "set-cut") print "set-cut set250 1"
                if (what == "set-show") print "set-show set250"
                if (what == "export-set") print "export-set set250"
                if (what == "renumber") print "renumber " (i % 2 ? "10000 20001" : "20001 10000")
                if (what == "delete") print "delete " 20001 - i
            }
        }'
}

# Runs the program on a script, and leaves its seconds in `seconds`.
run() {
    local TIMEFORMAT=%3R
    {
        time "$program" list < "$work/script" > "$work/replies" 2> "$work/errors" || exit 1
    } 2> "$work/seconds"
    seconds=$(cat "$work/seconds")
}

best() {
    least=999999
    for _ in 1 2 3 4 5; do
        run
        least=$(printf '%s\n' "$least" "$seconds" | sort -n | head -n 1)
    done
}

# Times so many commands of one kind, after others; the last reply is to begin with this line.
measure() {
    local name=$1 what=$2 count=$3 wanted=$4 before=$5 base=$6
    cp "$work/$before" "$work/script"
    make "$what" "$count" >> "$work/script"
    best
    if ! grep -qx -- "$wanted" "$work/replies"; then
        echo "$name: no reply is '$wanted'" >&2
        exit 1
    fi
    awk -v name="$name" -v all="$least" -v base="$base" -v count="$count" 'BEGIN {
        printf "%-34s %6d %10.3f\n", name, count, (all - base) * 1000 / count
    }'
}

make import 0 > "$work/tunes"
{ make import 0; make sets 0; } > "$work/tunes-and-sets"
cp "$work/tunes" "$work/script"
best
tunes=$least
cp "$work/tunes-and-sets" "$work/script"
best
both=$least
printf 'import of 20,000 tunes: %s s; with 500 set lists of 200 places: %s s\n' "$tunes" "$both"
printf '%-34s %6s %10s\n' command times 'ms each'
measure 'find by title' title 50 'ok find 1' tunes "$tunes"
measure 'find by rhythm' rhythm 50 'ok find 2000' tunes "$tunes"
measure 'find by key' key 50 'ok find 1000' tunes "$tunes"
measure 'find by notes' notes 50 'ok find 500' tunes "$tunes"
measure 'find that gives all' all 50 'ok find 20000' tunes "$tunes"
measure 'titles, 40,000 rows' titles 10 'ok titles 40000' tunes "$tunes"
measure 'set-add to new sets' set-add 10000 'ok set-add bench9801 200' tunes "$tunes"
measure 'set-cut' set-cut 150 'ok set-cut set250 1' tunes-and-sets "$both"
measure 'set-show of 200 places' set-show 500 'ok set-show set250 200' tunes-and-sets "$both"
measure 'export-set of 200 places' export-set 500 'ok export-set set250 .*' tunes-and-sets "$both"
measure 'renumber' renumber 5000 'ok renumber 20001 10000' tunes-and-sets "$both"
measure 'delete of a tune in no set' delete 900 'ok delete 19101' tunes-and-sets "$both"
