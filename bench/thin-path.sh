#!/usr/bin/env bash
# Usage: bench/thin-path.sh [EXECUTABLE]
# Times `tunes list` on large scripts, and compares every byte of its replies with what is wanted.
# Each script comes at half and at full size: where the full size takes more than 2.1 times the
# half, the cost is not linear. On a machine that does other work the seconds do not tell: with
# COUNT=yes, valgrind counts the instructions, in millions, in place of the seconds, and the script
# ends with 1 where they are not linear. That takes minutes.
set -u
root=$(CDPATH='' cd -- "$(dirname -- "$0")/.." && pwd) || exit 1
program=${1:-$root/crates/tunes/out/tunes}
work=$root/bench/work
count=${COUNT:-no}
[ -x "$program" ] || {
    echo "no program at $program: build it by ./tunes list < /dev/null" >&2
    exit 1
}
mkdir -p "$work" || exit 1
export LC_ALL=C

# Prints one of the texts below, for this many tunes, replaces, lines or blocks of 50 bytes.
make() {
    awk -v what="$1" -v count="$2" '
        function body(n) {
            return sprintf("T:Tune %05d\nM:4/4\nR:reel\nK:G\nGABc dedB|c2ec B2dB|\n", n)
        }
        # A line of these words and the length of a book of tune n, and the book.
        function with_book(words, n) {
            printf "%s %d\nX:1\n%s", words, 4 + length(body(n)), body(n)
        }
        function imports(    n) { for (n = 1; n <= count; n++) with_book("import", n) }
        function long_body(n,    i, s) {
            s = sprintf("T:Tune %05d\nC:Traditional\nO:Ireland\nR:reel\nM:4/4\nL:1/8\nK:G\n", n)
            for (i = 0; i < 6; i++) s = s "GABc dedB|c2ec B2dB|\n"
            return s
        }
        function one_import(    n) {
            print "import " count * (5 + length(long_body(1)))
            for (n = 1; n <= count; n++) printf "X:1\n%s\n", long_body(n)
        }
        function exported(    n, size) {
            size = 9
            for (n = 1; n <= count; n++) size += 4 + length(n "") + length(long_body(n))
            printf "ok export %d\n%%abc-2.1\n", size
            for (n = 1; n <= count; n++) printf "\nX:%d\n%s", n, long_body(n)
        }
        function imported(    n) { for (n = 1; n <= count; n++) print "ok import " n " " n }
        function shown(    n, size) {
            for (n = 1; n <= count; n++) {
                size = 3 + length(n "") + length(body(n))
                printf "ok show %d 1 %d\nX:%d\n%s", n, size, n, body(n)
            }
        }
        BEGIN {
            if (what == "imports") imports()
            if (what == "imports-wanted") imported()
            if (what == "shows") { imports(); for (n = 1; n <= count; n++) print "show " n }
            if (what == "shows-wanted") { imported(); shown() }
            if (what == "one-import") one_import()
            if (what == "one-import-wanted") print "ok import 1 " count
            if (what == "export") { one_import(); print "export" }
            if (what == "export-wanted") { print "ok import 1 " count; exported() }
            if (what == "replaces") {
                for (n = 1; n <= count; n++) with_book("replace 10000 " n, n)
            }
            if (what == "replaces-wanted") {
                for (n = 1; n <= count; n++) print "ok replace 10000 " n + 1
            }
            if (what == "book") {
                print "import " 50 * count
                for (n = 1; n <= count; n++) {
                    printf "X:1\nT:Tune %05d\nM:4/4\n", n
                    print "K:G\nGABc dedB|c2ec B2dB|]\n"
                }
            }
            if (what == "book-wanted") print "refused 9 ArchiveFull"
            if (what == "long") {
                printf "import %d\nX:1\nT:%-39s\nK:G\n", 50 * count, "A tune without end"
                for (n = 2; n <= count; n++) {
                    print "GABc dedB|c2ec B2dB|GABc dedB|c2ec B2dB|A2A2 A4||"
                }
            }
            if (what == "long-wanted") print "refused 2 BadTune 1 TooLong"
            if (what == "lines") for (n = 1; n <= count; n++) print "show 1"
            if (what == "lines-wanted") for (n = 1; n <= count; n++) print "refused 4 Unknown 1"
        }'
}

# Runs the program on a script, leaves its seconds or its instructions in `spent`, and ends with its
# status.
run() {
    local TIMEFORMAT=%3R status
    if [ "$count" = yes ]; then
        valgrind --tool=callgrind --callgrind-out-file=/dev/null "$program" list \
            < "$work/script" > "$work/replies" 2> "$work/errors"
        status=$?
        spent=$(awk '/Collected/ { printf "%.3f", $4 / 1000000 }' "$work/errors")
        return "$status"
    fi
    {
        time "$program" list < "$work/script" > "$work/replies" 2> "$work/errors"
    } 2> "$work/seconds"
    status=$?
    spent=$(cat "$work/seconds")
    return "$status"
}

# Measures one script of this size, whose run is to end with this status: the best of three runs, or
# one whose instructions are counted. It may come after an import of this many tunes.
measure() {
    local name=$1 what=$2 size=$3 wanted_status=$4 before=${5:-0} best=999999 status
    local rounds=3 ratio=""
    [ "$count" = yes ] && rounds=1
    : > "$work/script"
    : > "$work/wanted"
    if [ "$before" -gt 0 ]; then
        make one-import "$before" > "$work/script"
        make one-import-wanted "$before" > "$work/wanted"
    fi
    make "$what" "$size" >> "$work/script"
    make "$what-wanted" "$size" >> "$work/wanted"
    for ((round = 0; round < rounds; round++)); do
        run
        status=$?
        if [ "$status" -ne "$wanted_status" ] || ! cmp "$work/replies" "$work/wanted" >&2; then
            echo "$name: the replies differ, or the status is $status and not $wanted_status" >&2
            exit 1
        fi
        best=$(printf '%s\n' "$best" "$spent" | sort -n | head -n 1)
    done
    if [ -n "$half" ]; then
        ratio=$(awk -v half="$half" -v all="$best" 'BEGIN { printf "%.2f", all / half }')
        half=""
    else
        half=$best
    fi
    printf '%-42s %10d %10.3f %6s\n' "$name" "$(wc -c < "$work/script")" "$best" "$ratio"
    if [ "$count" = yes ] && awk -v ratio="${ratio:-0}" 'BEGIN { exit ratio <= 2.1 }'; then
        echo "$name: more than 2.1 times the half" >&2
        failed=1
    fi
}

half="" failed=0
if [ "$count" = yes ]; then unit=millions; else unit=seconds; fi
printf '%-42s %10s %10s %6s\n' "script" "bytes" "$unit" "ratio"
measure "10,000 imports" imports 10000 0
measure "20,000 imports" imports 20000 0
measure "10,000 imports, 10,000 shows" shows 10000 0
measure "20,000 imports, 20,000 shows" shows 20000 0
measure "10,000 tunes in one import" one-import 10000 0
measure "20,000 tunes in one import" one-import 20000 0
measure "10,000 tunes in one import, and an export" export 10000 0
measure "20,000 tunes in one import, and an export" export 20000 0
measure "20,000 tunes, and 4,999 replaces of one" replaces 4999 0 20000
measure "20,000 tunes, and 9,998 replaces of one" replaces 9998 0 20000
measure "a book of 2,000,000 bytes, 40,000 tunes" book 40000 0
measure "a book of 4,000,000 bytes, 80,000 tunes" book 80000 0
measure "a book of 2,000,000 bytes, one tune" long 40000 0
measure "a book of 4,000,000 bytes, one tune" long 80000 0
measure "500,000 lines of show 1" lines 500000 0
# A script of a million lines ends at the bound on lines, so with status 1.
measure "1,000,000 lines of show 1" lines 1000000 1

[ "$failed" -eq 0 ] || exit 1
command -v strace > /dev/null || exit 0
make shows 20000 > "$work/script"
strace -c -f -o "$work/calls" "$program" list < "$work/script" > "$work/replies" || exit 1
echo
echo "calls on 20,000 imports, 20,000 shows (40,000 replies, $(wc -c < "$work/script") bytes read):"
awk '$NF == "read" || $NF == "write" { print "  " $NF ": " $4 }' "$work/calls"
