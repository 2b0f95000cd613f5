#!/usr/bin/env bash
# Usage: bench/opening.sh [FOLDER [RUNS [TUNES [EXECUTABLE]]]]
# Times what an opening of an archive must cost, over a file of 20,000 tunes, in the folder: its
# calls of the system alone, an opening in C that asks for all that docs/FILE-FORMAT.md says
# (bench/opening.c), and `tunes check`, which is left out where there is no program. 5 runs of each
# by turns, the file's bytes in the system's cache. A time in C is that of the opening alone, one of
# the program that of its whole run, with its start. Prints milliseconds by the clock and of the
# processor, the least and the middle of each, and how they compare with those of the calls alone;
# and, where there is valgrind, how many instructions the opening in C takes for a tune beside its
# calls. The file has layout 2 and the tunes of bench/archive.sh, and is written by
# checks/archives.py, with all keys of its tunes.
set -u
root=$(CDPATH='' cd -- "$(dirname -- "$0")/.." && pwd) || exit 1
folder=${1:-$root/bench/work}
runs=${2:-5}
tunes=${3:-20000}
program=${4:-$root/crates/tunes/out/tunes}
work=$root/bench/work
opening=$work/opening_c
mkdir -p "$work" "$folder" || exit 1
cc -O2 -o "$opening" "$root/bench/opening.c" || exit 1
export LC_ALL=C
file=$folder/bench_opening.tunes
trap 'rm -f "$file"' EXIT

fail() {
    echo "$1" >&2
    exit 1
}

make() {
    python3 -B - "$root" "$file" "$tunes" << 'END'
import sys
root, path, tunes = sys.argv[1], sys.argv[2], int(sys.argv[3])
sys.path[:0] = [root + '/checks', root + '/examples']
from archives import Archive, Tune
from search_keys import keys_of


def tune_of(number):
    notes = ''.join('DEGABdeg'[number // 8 ** digit % 8] for digit in range(5))
    text = (f'T:The Tune {number:05}\nT:Name {20001 - number:05}\n'
            f'R:{"reel" if number % 10 else "jig"}\nM:4/4\nL:1/8\n'
            f'K:{"G" if number % 20 else "Edor"}\n'
            f'{notes} dedB|c2ec B2dB|\nGABc dedB|c2ec B2dB|\n').encode()
    titles, rhythms, scales, incipits = keys_of(text, 12)
    key = b''.join(incipits)
    steps = [int.from_bytes(key[at:at + 4], 'big') - 2 ** 31 for at in range(0, len(key), 4)]
    return Tune(text, tuple(titles), b''.join(rhythms), b''.join(scales), tuple(steps))


with open(path, 'w+b') as file:
    Archive({number: tune_of(number) for number in range(1, tunes + 1)}, version=2).write(file)
END
}

# Puts the times that a run prints as its last line behind a file: whose, of which kind.
timed() {
    local who=$1 clock processor
    shift
    "$@" > "$work/opening_reply" || fail "$who failed"
    read -r clock processor < <(tail -n 1 "$work/opening_reply")
    printf '%s clock %s\n%s processor %s\n' "$who" "$clock" "$who" "$processor" \
        >> "$work/opening_times"
}

calls() { timed calls "$opening" --reads "$file"; }
from_c() { timed c "$opening" --times "$file"; }
ours() {
    [ -x "$program" ] || return 0
    timed ours "$opening" --of "$program" check "$file"
    timed start "$opening" --of "$program" --version
}

# Prints how many instructions a run in C takes outside of the system.
instructions() {
    valgrind --tool=callgrind --callgrind-out-file=/dev/null "$opening" "$@" 2>&1 > /dev/null |
        awk '/Collected/ { print $NF }'
}

make && sync "$file" || fail 'no archive was made'
wanted="layout 2 tunes $tunes sets 0"
[ "$("$opening" "$file")" = "$wanted" ] || fail 'the opening in C reads another archive'
if [ -x "$program" ]; then
    [ "$("$program" check "$file")" = "$wanted" ] || fail 'the program reads another archive'
else
    echo "no program at $program: its opening is left out"
fi
: > "$work/opening_times"
for ((run = 0; run < runs; run++)); do
    if ((run % 2)); then
        ours
        from_c
        calls
    else
        calls
        from_c
        ours
    fi
done

sort -k1,2 -k3,3n "$work/opening_times" | awk '
    { spent[$1, $2, ++n[$1, $2]] = $3 / 1000 }
    function chosen(who, kind, way) {
        return spent[who, kind, way == "least" ? 1 : int((n[who, kind] + 1) / 2)]
    }
    function row(who, name, way,    clock, processor) {
        if (!n[who, "clock"]) return
        clock = chosen(who, "clock", way)
        processor = chosen(who, "processor", way)
        printf "%-20s %10.2f %8.2f %13.2f %8.2f\n", name, clock,
            clock / chosen("calls", "clock", way), processor,
            processor / chosen("calls", "processor", way)
    }
    function table(way) {
        printf "%-20s %10s %8s %13s %8s\n", way, "clock ms", "ratio", "processor ms", "ratio"
        row("calls", "the calls alone", way)
        row("c", "the opening in C", way)
        row("ours", "tunes check", way)
        row("start", "tunes --version", way)
    }
    END {
        table("least")
        table("middle")
    }'
if ! command -v valgrind > /dev/null; then
    echo 'no valgrind here: no instructions are counted'
    exit 0
fi
start=$(instructions)
once=$(instructions "$file")
with_calls=$(instructions --reads "$file")
echo "instructions of the opening in C for a tune, beside its calls:" \
    $(((2 * once - with_calls - start) / tunes))
