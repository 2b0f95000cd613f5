#!/usr/bin/env bash
# Usage: bench/hostile-books.sh [EXECUTABLE]
# Times `tunes list` on one import of a book that asks for much: long file headers, many tunes,
# lines with nothing in them. Each is to take at most 0.3 seconds and 400,000 kilobytes.
set -u
root=$(CDPATH='' cd -- "$(dirname -- "$0")/.." && pwd) || exit 1
program=${1:-$root/crates/tunes/out/tunes}
work=$root/bench/work
[ -x "$program" ] || {
    echo "no program at $program: build it by ./tunes list < /dev/null" >&2
    exit 1
}
mkdir -p "$work" || exit 1
export LC_ALL=C

# Writes a text so many times.
times() {
    awk -v text="$1" -v count="$2" 'BEGIN { for (n = 0; n < count; n++) printf "%s", text }'
}

# Imports the book that comes in, and compares the reply.
measure() {
    local name=$1 wanted=$2 reply
    cat > "$work/book"
    { printf 'import %d\n' "$(wc -c < "$work/book")"; cat "$work/book"; } > "$work/script"
    reply=$(/usr/bin/time -f '%e %U %M' -o "$work/seconds" "$program" list < "$work/script")
    if [ "$reply" != "$wanted" ]; then
        echo "$name: the reply is '$reply' and not '$wanted'" >&2
        exit 1
    fi
    printf '%-46s %10d %s\n' "$name" "$(wc -c < "$work/book")" "$(cat "$work/seconds")"
}

echo 'book, its bytes, seconds, seconds of the processor, kilobytes'
{ times 'R:\n' 300000; echo; times 'X:\nR:\nK:\n' 20000; } |
    measure '300,000 lines that no tune carries' 'ok import 1 20000'
{ times 'R:\n' 300000; printf 'S:\n\n'; times 'X:\nR:\nK:\nX:\nR:\nS:\nK:\n' 10000; } |
    measure 'the same and one that each second one does' 'ok import 1 20000'
{ times 'R:\nS:\n' 2600; printf 'Q:\n\n'; times 'X:\nK:\nX:\nQ:\nK:\n' 10000; } |
    measure '5,200 lines, and one that each second one has' 'ok import 1 20000'
{ printf '%%%%%015890d\n\n' 0; times 'X:1\nK:C\n\n' 20000; } |
    measure '20,000 tunes that carry 15,890 bytes' 'ok import 1 20000'
{ printf '%%%%%015890d\n\n' 0; times 'X:1\nK:C\n\n' 440000; } |
    measure '440,000 tunes that would carry them' 'refused 9 ArchiveFull'
{ times 'R:\n' 660000; echo; times 'X:\nK:\n' 330000; } |
    measure 'a file header that is too long' 'refused 2 BadTune 1 TooLong'
times 'X:\nK:\n' 666666 | measure '666,666 tunes' 'refused 9 ArchiveFull'
times 'X:\n' 1333333 | measure '1,333,333 tunes without a key' 'refused 2 BadTune 1 NoKey'
times '\n' 4000000 | measure 'line feeds' 'refused 1 NoTune'
times '\r' 4000000 | measure 'carriage returns' 'refused 1 NoTune'
times '\r\n' 2000000 | measure 'both' 'refused 1 NoTune'
times '%' 4000000 | measure 'one line' 'refused 1 NoTune'
