#!/bin/sh
# Usage: bench/players.sh [FOLDER [TUNES..]]
# Times what a player waits for, by the client in C over the built programs, on archives of 5,000
# and of 50,000 tunes in the folder, the file's bytes in the system's cache: bench/players.c has the
# parts. Prints, of each, the milliseconds of three runs by turns, least, middle and most, how large
# the file is, how much memory the program that asks takes at most, and how busy the machine is.
set -u
root=$(CDPATH='' cd -- "$(dirname -- "$0")/.." && pwd) || exit 1
work=$root/bench/work
folder=${1:-$work}
[ $# -eq 0 ] || shift
[ $# -gt 0 ] || set -- 5000 50000
TUNES=${TUNES:-$root/crates/tunes/out/tunes}
TUNES_DESK=${TUNES_DESK:-$root/crates/tunes_desk/out/tunes_desk}
export TUNES TUNES_DESK LC_ALL=C
mkdir -p "$work" "$folder" || exit 1
cc -std=c11 -O2 -o "$work/players" "$root/bench/players.c" "$root/clients/c/tunes_archive.c" ||
    exit 1
trap 'rm -f "$folder"/bench_players.*' EXIT

# A script that imports so many tunes, by books of 5,000. Each begins with notes of its own.
make() {
    awk -v tunes="$1" '
        function opening(n,    i, s) {
            for (i = 0; i < 6; i++) {
                s = s substr("DEGABdeg", n % 8 + 1, 1)
                n = int(n / 8)
            }
            return s
        }
        function tune(n) {
            return sprintf("X:%d\nT:The Tune %05d\nR:%s\nM:4/4\nL:1/8\nK:G\n%s%s\n%s\n\n", n, n,
                n % 10 ? "reel" : "jig", opening(n), "de dedB|c2ec B2dB|cABG AGEF|GABc d2ef|",
                "g2fg edBd|c2ec BGBd|gfge dBGB|cABG AGG2|")
        }
        BEGIN {
            for (first = 1; first <= tunes; first += 5000) {
                book = ""
                for (n = first; n < first + 5000 && n <= tunes; n++) book = book tune(n)
                printf "import %d\n%s", length(book), book
            }
        }'
}

uptime
for tunes; do
    file=$folder/bench_players.$tunes
    rm -f "$file"
    "$TUNES" make "$file" > "$folder/bench_players.told" || exit 1
    make "$tunes" | "$TUNES" run "$file" > "$folder/bench_players.told" || exit 1
    echo "$tunes tunes: a file of $(($(wc -c < "$file") / 1000000)) MB"
    # shellcheck disable=SC2034 # a run is a turn
    for run in 1 2 3; do
        "$work/players" "$file" "$tunes" || exit 1
    done | sort -k 1,1 -k 2,2n | awk '
        $1 != part { printf "%s%s", part == "" ? "" : "\n", $1; part = $1 }
        { printf " %s", $2 }
        END { print "" }'
    printf 'memory of an opening with one show: '
    echo 'show 1' > "$folder/bench_players.script"
    command time -f '%M KB' "$TUNES_DESK" -f "$file" ask < "$folder/bench_players.script" 2>&1 \
        > "$folder/bench_players.told"
done
uptime
