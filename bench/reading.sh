#!/usr/bin/env bash
# Usage: bench/reading.sh [EXECUTABLE]
# Times the reading of 20,000 tunes (3.8 MB), layer by layer, by the program `benches`. A line
# is a layer, the milliseconds of one pass over all tunes (those of 21 passes less those of 1 pass,
# by 20), and what a pass came to.
set -u
root=$(CDPATH='' cd -- "$(dirname -- "$0")/.." && pwd) || exit 1
program=${1:-$root/crates/benches/out/benches}
work=$root/bench/work
[ -x "$program" ] || {
    echo "no program at $program: build it by 'rt run -- disk pages 5' in crates/benches" >&2
    exit 1
}
mkdir -p "$work" || exit 1
export LC_ALL=C

awk 'BEGIN {
    split("G D Em Ador Bb F#m C Edor AMix Dmin", keys, " ")
    for (n = 1; n <= 20000; n++) {
        printf "X:%d\nT:Tune %05d\nC:Traditional\nO:Ireland\nR:reel\nM:4/4\nL:1/8\nK:%s\n",
            n, n, keys[n % 10 + 1]
        for (i = 0; i < 6; i++) printf "GABc dedB|c2ec B2dB|\n"
        print ""
    }
}' > "$work/tunes.abc" || exit 1

# Prints the milliseconds that so many passes take, and keeps what they came to.
passes() {
    local start end
    start=$(date +%s%N)
    total=$("$program" reading "$1" "$2" < "$work/tunes.abc") || exit 1
    end=$(date +%s%N)
    nanoseconds=$((end - start))
}

for layer in split fields keys notes steps; do
    passes "$layer" 1
    one=$nanoseconds
    passes "$layer" 21
    awk -v layer="$layer" -v total="$total" -v spent=$((nanoseconds - one)) \
        'BEGIN { printf "%-8s %8.2f ms  %s\n", layer, spent / 20 / 1000000, total }'
done

# Hostile tunes of 63,900 bytes of music. Each is read in the time of its length, but for the last:
# there the bar is read again for notes far off.
hostile() {
    awk -v what="$1" 'BEGIN {
        printf "X:1\nK:C\n"
        if (what == "comma") { printf "C"; for (n = 1; n < 63900; n++) printf ","; print ""; exit }
        for (n = length(what); n <= 63900; n += length(what)) printf "%s", what
        print ""
    }' > "$work/tunes.abc"
}

for text in '{' '"' '[' '(3' '[K:' '!' '^' '[C' comma 'C,,,,,,,,,' '^C,,,,,,,,,C,,,,,,,,,,'; do
    hostile "$text"
    passes notes 1
    one=$nanoseconds
    passes notes 21
    awk -v text="$text" -v total="$total" -v spent=$((nanoseconds - one)) \
        'BEGIN { printf "63,900 bytes of %-24s %8.2f ms  %s\n", text, spent / 20 / 1000000, total }'
done

# Books of 4 MB, by their openings: 249 tunes of 16,000 bytes, of one text again and again. `far` is
# one chord of notes beyond the sixteen octaves, `chord` one of notes, of which the first alone
# counts; `rests` and `keys` are lines of their own. `tiny` is tunes of a key alone.
book() {
    awk -v what="$1" 'BEGIN {
        front["far"] = "[^C,,,,,,,,,"; part["far"] = "C,,,,,,,,,"; back["far"] = "]"
        front["chord"] = "["; part["chord"] = "c"; back["chord"] = "]"
        part["rests"] = "z\n"; part["keys"] = "K:C\n"
        if (what == "tiny") { for (n = 0; n < 4000000; n += 8) print "X:1\nK:C"; exit }
        if (!(what in part)) part[what] = what
        for (tune = 1; tune <= 249; tune++) {
            printf "X:%d\nK:C\n%s", tune, front[what]
            for (n = 0; n < 15900; n += length(part[what])) printf "%s", part[what]
            print back[what] (part[what] ~ /\n$/ ? "" : "\n")
        }
    }' > "$work/tunes.abc"
}

for text in far z '|' '^z|' '[^C]z' '[' '[|' '[:' '{' '[K:C]' chord rests keys tiny; do
    book "$text"
    passes steps 1
    one=$nanoseconds
    passes steps 21
    awk -v text="$text" -v total="$total" -v spent=$((nanoseconds - one)) \
        'BEGIN {
            printf "openings of a book of %-10s %8.2f ms  %s\n", text, spent / 20 / 1000000, total
        }'
done
