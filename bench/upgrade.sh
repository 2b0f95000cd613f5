#!/usr/bin/env bash
# Usage: bench/upgrade.sh [FOLDER [RUNS [TUNES [EXECUTABLE]]]]
# Times `upgrade` over a file of layout 1 with 20,000 tunes, in the folder, beside an opening of the
# file by `check` and the calls of the disk that an upgrade makes behind its opening, from C. 5 runs
# of each by turns, each on a copy that is on the disk, its bytes in the system's cache. A time of
# the program is that of its whole run. Prints milliseconds, the least and the middle of each, and
# how the upgrade compares with the other two together; of 20,000 tunes at most 1.5 is wanted. The
# file is written by checks/archives.py, with all keys of its tunes. Without strace no calls are
# known, and C has none to make.
set -u
root=$(CDPATH='' cd -- "$(dirname -- "$0")/.." && pwd) || exit 1
folder=${1:-$root/bench/work}
runs=${2:-5}
tunes=${3:-20000}
program=${4:-$root/crates/tunes/out/tunes}
work=$root/bench/work
if [ ! -x "$program" ]; then
    echo "no program at $program: build it by ./tunes list < /dev/null" >&2
    exit 1
fi
mkdir -p "$work" "$folder" || exit 1
cc -O2 -o "$work/archive_c" "$root/bench/archive.c" || exit 1
export LC_ALL=C
before=$folder/bench_upgrade.before
file=$folder/bench_upgrade.tunes
trap 'rm -f "$before" "$file"' EXIT

fail() {
    echo "$1" >&2
    exit 1
}

# Writes the file. Each tune has a title, an opening and a length of its own.
make() {
    python3 -B - "$root" "$before" "$tunes" << 'END'
import sys
root, path, tunes = sys.argv[1], sys.argv[2], int(sys.argv[3])
sys.path[:0] = [root + '/checks', root + '/examples']
from archives import Archive, Tune
from search_keys import keys_of


def tune_of(number):
    notes = ''.join('DEGABdeg'[number // 8 ** digit % 8] for digit in range(5))
    text = (f'T:The Tune {number:05}\nR:{"reel" if number % 10 else "jig"}\nM:4/4\nL:1/8\nK:G\n'
            f'{notes} dedB|c2ec B2dB|\n' + 'GABc dedB|c2ec B2dB|\n' * (number % 7 + 1)).encode()
    titles, rhythms, scales, incipits = keys_of(text, 8)
    key = b''.join(incipits)
    steps = [int.from_bytes(key[at:at + 4], 'big') - 2 ** 31 for at in range(0, len(key), 4)]
    return Tune(text, tuple(titles), b''.join(rhythms), b''.join(scales), tuple(steps))


with open(path, 'w+b') as file:
    Archive({number: tune_of(number) for number in range(1, tunes + 1)}).write(file)
END
}

# Leaves in `file` a copy of the file that is on the disk.
put_file() { cp "$before" "$file" && sync "$file" || exit 1; }

# Prints the calls of the disk among those that strace wrote of a run of this word.
calls_of() {
    put_file
    strace -s 0 -e trace=%desc -o "$work/upgrade_trace" "$program" "$1" "$file" \
        > "$work/upgrade_reply" || fail "$1 failed"
    awk -F '[(), ]+' -v name="\"$file\"" '
        $1 == "openat" && index($0, name) { disk = $NF; next }
        disk == "" || $2 != disk || $1 == "flock" || $1 == "close" { next }
        $1 == "fdatasync" && $NF == 0 { print "sync"; next }
        $1 == "statx" && $NF == 0 { print "length"; next }
        $1 == "pread64" && $4 == $NF { print "read", $4, $5; next }
        $1 == "pwrite64" && $4 == $NF { print "write", $4, $5; next }
        { print "a call that is not known here: " $0 > "/dev/stderr"; exit 1 }' \
        "$work/upgrade_trace" || exit 1
    rm -f "$work/upgrade_trace"
}

# Puts the microseconds of a run of the program behind a file.
timed() {
    local start end
    start=${EPOCHREALTIME/./}
    "$program" "$1" "$file" > "$work/upgrade_reply" || fail "$1 failed"
    end=${EPOCHREALTIME/./}
    echo "$1 $((end - start))" >> "$work/upgrade_times"
}

make || fail 'no archive was made'
: > "$work/upgrade_times"
rm -f "$work/upgrade_calls"
if command -v strace > /dev/null; then
    calls_of check > "$work/upgrade_opening" || exit 1
    calls_of upgrade > "$work/upgrade_all" || exit 1
    opening=$(($(wc -l < "$work/upgrade_opening")))
    head -n "$opening" "$work/upgrade_all" | cmp - "$work/upgrade_opening" >&2 ||
        fail 'an upgrade opens the file by other calls than a check'
    tail -n "+$((opening + 1))" "$work/upgrade_all" > "$work/upgrade_calls"
fi
for ((run = 0; run < runs; run++)); do
    put_file
    timed check
    timed upgrade
    [ "$(cat "$work/upgrade_reply")" = 'ok upgrade 2' ] || fail 'the answer is another'
    [ "$("$program" check "$file")" = "layout 2 tunes $tunes sets 0" ] || fail 'it has other tunes'
    [ -s "$work/upgrade_calls" ] || continue
    put_file
    spent=$("$work/archive_c" "$file" "$work/upgrade_calls") || fail 'the calls from C failed'
    echo "calls $spent" >> "$work/upgrade_times"
done

sort -k1,1 -k2,2n "$work/upgrade_times" | awk -v tunes="$tunes" '
    { spent[$1, ++n[$1]] = $2 / 1000 }
    function chosen(name, way) { return spent[name, way == "least" ? 1 : int((n[name] + 1) / 2)] }
    function row(way,    ratio, more) {
        if (!n["calls"]) {
            printf "%-8s %10.2f %10.2f %10s %8s\n", way, chosen("upgrade", way),
                chosen("check", way), "-", "-"
            return
        }
        ratio = chosen("upgrade", way) / (chosen("check", way) + chosen("calls", way))
        more = tunes == 20000 && ratio > 1.5
        printf "%-8s %10.2f %10.2f %10.2f %8.2f%s\n", way, chosen("upgrade", way),
            chosen("check", way), chosen("calls", way), ratio, more ? "  MORE than 1.5" : ""
    }
    END {
        printf "%-8s %10s %10s %10s %8s\n", "", "upgrade ms", "opening ms", "C ms", "ratio"
        row("least")
        row("middle")
    }'
if [ -s "$work/upgrade_calls" ]; then
    awk '{ count[$1]++; bytes[$1] += $2 }
        END {
            printf "behind its opening: %d reads of %d bytes, %d writes of %d, %d syncs\n",
                count["read"], bytes["read"], count["write"], bytes["write"], count["sync"]
        }' "$work/upgrade_calls"
else
    echo 'no strace here: no calls are known, and none are made from C'
fi
