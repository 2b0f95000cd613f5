#!/usr/bin/env bash
# Usage: bench/archive.sh [FOLDER [RUNS [TUNES [EXECUTABLE [REPLIES]]]]]
# Times the program on an archive in a file, in the folder, against the same calls of the disk from
# C: one import of 20,000 tunes to a new file; over a file of these an opening, an export to a pipe,
# all titles, 1,000 shows, 1,000 finds by a title and 1,000 by notes, each of one tune, 1,000 shows
# of one and the same tune, 1,000 finds by one and the same opening, and 500 replaces, renumbers and
# deletes; and over a file of 19,500, since 20,000 is the most, 500 imports of one tune each. 5 runs
# of each by turns, the file's bytes in the system's cache. A time of the program is that of its
# whole run, with its start and the opening; of C that of the calls alone. What is compared with
# calls writes its replies to a file, since C has none to write: a reader of a pipe that sleeps has
# to be woken for each. With `pipe` as REPLIES they go to one, as those of the others do. Prints
# milliseconds, the least and the middle of each, and how the program's compare with C's: with its
# start and, for changes, less the opening of both, for others less its start; the same part in
# memory, by `list`, less the import before it, in the first five runs; and what is wanted. Then,
# since times may swing, the middle of what each run of the program is to the run from C beside it;
# finds by title and by notes together, in openings; and the calls of each part. Without strace no
# calls are known, and C has none to make. Of fewer tunes all counts are in proportion, and nothing
# is wanted.
set -u
root=$(CDPATH='' cd -- "$(dirname -- "$0")/.." && pwd) || exit 1
folder=${1:-$root/bench/work}
runs=${2:-5}
tunes=${3:-20000}
program=${4:-$root/crates/tunes/out/tunes}
replies=${5:-file}
singles=$((tunes / 40))
shows=$((tunes / 20))
work=$root/bench/work
asked='export shows titles notes all-titles show-one find-one'
parts="import imports replaces renumbers deletes check $asked"
# What is compared with calls.
compared=' import imports replaces renumbers deletes check titles notes '
if [ ! -x "$program" ]; then
    echo "no program at $program: build it by ./tunes list < /dev/null" >&2
    exit 1
fi
mkdir -p "$work" "$folder" || exit 1
cc -O2 -o "$work/archive_c" "$root/bench/archive.c" || exit 1
export LC_ALL=C
new=$folder/bench_archive.new
most=$folder/bench_archive.most
full=$folder/bench_archive.full
changed=$folder/bench_archive.tunes
trap 'rm -f "$new" "$most" "$full" "$changed" "$work/archive_kept"' EXIT

fail() {
    echo "$1" >&2
    exit 1
}

# Prints the commands of a part; those of `most` are one import of all tunes but 500. The tunes are
# those of bench/questions.sh, but that each begins with notes of its own.
make() {
    awk -v what="$1" -v tunes="$tunes" -v singles="$singles" -v shows="$shows" '
        # The digits of a number by eight, the last first, as notes.
        function opening(n,    i, s) {
            for (i = 0; i < 5; i++) {
                s = s substr("DEGABdeg", n % 8 + 1, 1)
                n = int(n / 8)
            }
            return s
        }
        function body(n,    s) {
            s = sprintf("T:The Tune %05d\nT:Name %05d\nR:%s\nM:4/4\nL:1/8\nK:%s\n", n, 20001 - n,
                n % 10 ? "reel" : "jig", n % 20 ? "G" : "Edor")
            return s opening(n) " dedB|c2ec B2dB|\nGABc dedB|c2ec B2dB|\n"
        }
        function import(first, last,    n, size) {
            for (n = first; n <= last; n++) size += length("X:1\n" body(n) "\n")
            print "import " size
            for (n = first; n <= last; n++) printf "X:1\n%s\n", body(n)
        }
        BEGIN {
            if (what == "import") import(1, tunes)
            if (what == "most") import(1, tunes - singles)
            if (what == "imports") for (n = tunes - singles + 1; n <= tunes; n++) import(n, n)
            if (what == "replaces") for (i = 1; i <= singles; i++) {
                n = i * 7919 % tunes + 1
                text = "X:1\n" body((n + 4321) % tunes + 1)
                printf "replace %d 1 %d\n%s", n, length(text), text
            }
            if (what == "renumbers") for (i = 1; i <= singles; i++) {
                n = i * 7919 % tunes + 1
                print "renumber " n, n + 30000
            }
            if (what == "deletes") for (i = 1; i <= singles; i++)
                print "delete " i * 7919 % tunes + 1
            if (what == "titles") for (i = 1; i <= shows; i++)
                printf "find title Name %05d\n", i * 7919 % tunes + 1
            if (what == "notes") for (i = 1; i <= shows; i++)
                print "find notes " opening(i * 7919 % tunes + 1) "ded"
            if (what == "export") print "export"
            if (what == "all-titles") print "titles"
            one = int((tunes + 1) / 2)
            if (what == "show-one") for (i = 0; i < shows; i++) print "show " one
            if (what == "find-one") for (i = 0; i < shows; i++)
                print "find notes " opening(one) "ded"
            if (what == "shows") for (i = 0; i < shows; i++) print "show " i * 7919 % tunes + 1
        }'
}

# Leaves in `file` the path of a file as it stands before a part: for one that changes it, a copy
# that is on the disk.
put_file() {
    local before
    case $1 in
    import) before=$new ;;
    imports) before=$most ;;
    replaces | renumbers | deletes) before=$full ;;
    *)
        file=$full
        return
        ;;
    esac
    file=$changed
    cp "$before" "$file" && sync "$file" || exit 1
}

# Runs the program on the file for a part, behind these words if there are any.
on_file() {
    local part=$1
    shift
    if [ "$part" = check ]; then
        "$@" "$program" check "$file"
    else
        "$@" "$program" run "$file" < "$work/archive_$part"
    fi
}

# The script of a part in memory, behind an import of what stands in the file.
put_script() {
    local before
    case $1 in
    import | most) before=/dev/null ;;
    imports) before=$work/archive_most ;;
    *) before=$work/archive_import ;;
    esac
    cat "$before" "$work/archive_$1" > "$work/archive_memory"
}

in_memory() { "$program" list < "$work/archive_memory"; }

# Compares the replies of a part with those in memory, which come behind that of the import.
compare() {
    local skipped=2
    if [ "$1" = check ]; then
        echo "layout 2 tunes $tunes sets 0" > "$work/archive_wanted"
    else
        [ "$1" = import ] && skipped=1
        put_script "$1"
        in_memory | tail -n +$skipped > "$work/archive_wanted"
    fi
    cmp "$work/archive_replies" "$work/archive_wanted" >&2 || fail "$1: the replies differ"
}

# Prints the calls of the disk among those that strace wrote. How many there are of each kind goes
# behind another file, with the reads of the script and the writes of replies.
calls_of() {
    awk -F '[(), ]+' -v name="\"$file\"" -v part="$1" -v counts="$work/archive_counts" '
        $1 == "openat" && index($0, name) { disk = $NF; next }
        $1 == "read" && $2 == "0" { lines++; next }
        $1 == "write" && $2 == "1" { replies++; next }
        disk == "" || $2 != disk || $1 == "flock" || $1 == "close" { next }
        $1 == "fdatasync" && $NF == 0 { print "sync"; syncs++; next }
        $1 == "statx" && $NF == 0 { print "length"; next }
        $1 == "pread64" && $4 == $NF { print "read", $4, $5; reads++; read += $4; next }
        $1 == "pwrite64" && $4 == $NF { print "write", $4, $5; writes++; written += $4; next }
        { print "a call that is not known here: " $0 > "/dev/stderr"; bad = 1; exit }
        END {
            printf "%-10s %8d %11d %8d %11d %6d %8d %8d\n", part, reads, read, writes, written,
                syncs, lines, replies >> counts
            exit bad
        }'
}

# Runs each part once, to see its replies and its calls.
look() {
    local part
    : > "$work/archive_counts"
    for part in $parts; do
        put_file "$part"
        if command -v strace > /dev/null; then
            on_file "$part" strace -s 0 -e trace=%desc -o "$work/archive_trace"
        else
            on_file "$part"
        fi > "$work/archive_replies" || fail "$part failed"
        compare "$part"
        command -v strace > /dev/null || continue
        calls_of "$part" < "$work/archive_trace" > "$work/archive_calls_$part" || exit 1
        rm -f "$work/archive_trace"
    done
}

# Puts the microseconds of a run behind a file: whose run, which part.
tell() { echo "$1 $2 $3" >> "$work/archive_times"; }

# Times words of the shell, whose output goes into a file or a pipe.
timed() {
    local who=$1 part=$2 output=$pipe start end
    shift 2
    case $replies$compared in file*" $part "*) output=$kept ;; esac
    start=${EPOCHREALTIME/./}
    "$@" >&"$output" || fail "$part failed"
    end=${EPOCHREALTIME/./}
    tell "$who" "$part" $((end - start))
}

ours() {
    put_file "$1"
    timed ours "$1" on_file "$1"
}

from_c() {
    local spent
    [ -s "$work/archive_calls_$1" ] || return
    put_file "$1"
    spent=$("$work/archive_c" "$file" "$work/archive_calls_$1") || fail "$1 from C failed"
    tell c "$1" "$spent"
}

for part in $parts; do
    make "$part" > "$work/archive_$part"
    rm -f "$work/archive_calls_$part"
done
make most > "$work/archive_most"
rm -f "$new"
"$program" make "$new" > /dev/null || fail 'no archive was made'
cp "$new" "$most" && cp "$new" "$full" || exit 1
"$program" run "$most" < "$work/archive_most" > /dev/null || fail 'no import'
"$program" run "$full" < "$work/archive_import" > /dev/null || fail 'no import'
look

exec {pipe}> >(cat > /dev/null) {kept}> "$work/archive_kept"
: > "$work/archive_times"
for ((run = 0; run < runs; run++)); do
    timed ours start "$program" --version
    for part in $parts; do
        if ((run % 2)); then
            from_c "$part"
            ours "$part"
        else
            ours "$part"
            from_c "$part"
        fi
    done
    for part in import most imports replaces renumbers deletes $asked; do
        ((run < 5)) || break
        put_script "$part"
        timed memory "$part" in_memory
    done
done

awk -v parts="$parts" -v tunes="$tunes" '
    { spent[$1 " " $2, ++n[$1 " " $2]] = $3 / 1000 }
    # Puts the values of a name in order.
    function put_in_order(name,    i, j, value) {
        for (i = 2; i <= n[name]; i++) {
            value = spent[name, i]
            for (j = i; j > 1 && spent[name, j - 1] > value; j--)
                spent[name, j] = spent[name, j - 1]
            spent[name, j] = value
        }
    }
    # How much more the run of this place of the one name took than that of the other.
    function longer(place, name, less) { return spent[name, place] - spent[less, place] }
    # What goes before a part: the opening before a change, else the start of the program.
    function before(part) { return part in changes ? "check" : "start" }
    # Keeps the ratio of each pair of runs of a part, and the same less what goes before it.
    function pair(part,    i, there) {
        for (i = 1; i <= n["c " part]; i++) {
            spent["pairs " part, ++n["pairs " part]] = \
                spent["ours " part, i] / spent["c " part, i]
            there = longer(i, "c " part, "c " before(part))
            if (there > 0)
                spent["less " part, ++n["less " part]] = \
                    longer(i, "ours " part, "ours " before(part)) / there
        }
    }
    function chosen(name, way) {
        return n[name] ? spent[name, way == "least" ? 1 : int((n[name] + 1) / 2)] : ""
    }
    function shown(value) { return value == "" ? "-" : sprintf("%.2f", value) }
    # What is wanted, and whether it is so: of a change, less the opening.
    function judged(part, time, ratio,    text, over) {
        if (tunes != 20000) return "-"
        if (part in ratios) {
            text = "ratio " ratios[part] (part in changes ? " less the opening" : "")
            over = ratio != "" && ratio > ratios[part]
        }
        if (part in times) {
            text = text (text == "" ? "" : ", ") times[part] " ms"
            over = over || time > times[part]
        }
        return text (over ? ": MORE" : "")
    }
    # The time of a part in memory, less that of the import before it.
    function in_memory(part, way,    all) {
        all = chosen("memory " part, way)
        if (part == "import" || all == "") return all
        return all - chosen("memory " (part == "imports" ? "most" : "import"), way)
    }
    # How a part compares with its calls from C, less what goes before it.
    function compared(part, way,    there) {
        there = chosen("c " part, way) - chosen("c " before(part), way)
        if (there <= 0) return ""
        return (chosen("ours " part, way) - chosen("ours " before(part), way)) / there
    }
    # How many openings the finds take together.
    function openings(way) {
        return (chosen("ours titles", way) + chosen("ours notes", way)) / chosen("ours check", way)
    }
    function row(part, way,    time, there, ratio, less) {
        time = chosen("ours " part, way)
        there = chosen("c " part, way)
        ratio = there == "" ? "" : time / there
        less = compared(part, way)
        printf "%-10s %10s %10s %8s %8s %10s  %s\n", part, shown(time), shown(there),
            shown(ratio), shown(less), shown(in_memory(part, way)),
            judged(part, time, part in changes ? less : ratio)
    }
    function table(way,    i) {
        printf "%-10s %10s %10s %8s %8s %10s  %s\n", way, "tunes ms", "C ms", "ratio", "less",
            "memory ms", "wanted at most"
        for (i = 1; i <= count; i++) row(names[i], way)
    }
    BEGIN {
        count = split(parts, names)
        split("imports replaces renumbers deletes", words)
        for (i in words) changes[words[i]]
        ratios["import"] = ratios["imports"] = 1.2
        ratios["replaces"] = ratios["renumbers"] = ratios["deletes"] = 1.2
        ratios["check"] = 1.8
        ratios["titles"] = ratios["notes"] = 2
        times["export"] = 100
        times["shows"] = 80
    }
    END {
        for (i = 1; i <= count; i++) pair(names[i])
        for (name in n) put_in_order(name)
        table("least")
        table("middle")
        printf "%-10s %30s %8s\n", "pairs", "middle ratio", "less"
        for (i = 1; i <= count; i++)
            printf "%-10s %30s %8s\n", names[i], shown(chosen("pairs " names[i], "middle")),
                shown(chosen("less " names[i], "middle"))
        printf "the start of the program alone: least %s ms, middle %s ms\n",
            shown(chosen("ours start", "least")), shown(chosen("ours start", "middle"))
        printf "finds by title and by notes together: least %s openings, middle %s\n",
            shown(openings("least")), shown(openings("middle"))
    }' "$work/archive_times"
if [ ! -s "$work/archive_calls_import" ]; then
    echo 'no strace here: no calls are counted, and none are made from C'
    exit 0
fi
printf '%-10s %8s %11s %8s %11s %6s %8s %8s\n' \
    calls reads bytes writes bytes syncs script replies
cat "$work/archive_counts"
