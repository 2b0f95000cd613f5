#!/bin/sh
# Usage: checks/front-end.sh
# Tries each command of ./tunes-book under each of the shells `sh`, `bash --posix` and `busybox sh`
# that is here, over the programs ./tunes and ./tunes-desk, or those that the variables TUNES and
# TUNES_DESK name; then the pages, the completion, ./install and ./release. SHELLS and PARTS name
# some of them, as PARTS=pages the pages and what comes behind them. Prints a line for each case,
# and ends with status 1 where one failed.
# shellcheck disable=SC2015,SC2016,SC2028,SC2086 # words of a line are split; `$` is for others
# A shell cannot take a signal that was ignored when it began: here each is as at the start.
if [ -z "${SIGNALS_ARE_TAKEN-}" ]; then
    SIGNALS_ARE_TAKEN=yes
    export SIGNALS_ARE_TAKEN
    exec python3 -c 'import os, signal, sys
for each in signal.SIGHUP, signal.SIGINT, signal.SIGTERM, signal.SIGPIPE:
    signal.signal(each, signal.SIG_DFL)
os.execvp("sh", ["sh", *sys.argv[1:]])' "$0" "$@"
fi
root=$(CDPATH='' cd -- "$(dirname -- "$0")/.." && pwd) || exit 1
program=${TUNES:-$root/tunes}
desk=${TUNES_DESK:-$root/tunes-desk}
case $program in /*) ;; *) program=$PWD/$program ;; esac
case $desk in /*) ;; *) desk=$PWD/$desk ;; esac
# The launchers build the programs, if need be; then these are called without them.
"$program" --version > /dev/null && "$desk" --version > /dev/null || exit 1
if [ "$program" = "$root/tunes" ]; then program=$root/crates/tunes/out/tunes; fi
if [ "$desk" = "$root/tunes-desk" ]; then desk=$root/crates/tunes_desk/out/tunes_desk; fi
unset TUNES TUNES_DESK TUNES_BOOK VISUAL EDITOR LC_ALL
work=$(mktemp -d) || exit 1
trap 'rm -rf "$work"' EXIT
trap 'exit 1' HUP INT TERM
failures=0
cases=0
shell='sh'
book=$root/examples/session.abc
TMPDIR="$work/tem porary"
TUNES=$program
TUNES_DESK=$desk
export TMPDIR TUNES TUNES_DESK
mkdir "$TMPDIR" && chmod 755 "$work" && chmod 1777 "$TMPDIR"
{ printf '%%abc-2.1\n\n' && cat "$book"; } > "$work/session-book"

# Begins a case: a new folder; with an archive of the fifteen tunes, or a file of layout 1 that is
# kept, where the second word says so.
begin() {
    cases=$((cases + 1))
    title=$1
    why=
    mkdir "$work/$cases" && cd "$work/$cases" || exit 1
    TUNES=$program
    TUNES_DESK=$desk
    TUNES_BOOK=tunes.abcx
    export TUNES TUNES_DESK TUNES_BOOK
    unset VISUAL
    EDITOR='sh ./editor'
    export EDITOR
    case ${2-} in
    session) cp "$work/session.abcx" tunes.abcx ;;
    one) cp "$work/one.abcx" tunes.abcx ;;
    esac
}

# Keeps what is wrong in this case; the first counts.
wrong() { [ -n "$why" ] || why=$1; }

# Runs ./tunes-book.
run() {
    words=$*
    $shell "$root/tunes-book" "$@" > "$work/out" 2> "$work/err" < /dev/null
    status=$?
}

ends_with() {
    [ "$status" -eq "$1" ] ||
        wrong "'$words' has status $status in place of $1: $(head -n 1 "$work/err")"
}

says() {
    [ "$(cat "$work/out")" = "$1" ] ||
        wrong "'$words' says '$(head -n 3 "$work/out")' in place of '$1'"
}

# Standard error has a message of tunes-book with this text; of wrong words, maybe of the parser.
complains() {
    case $(cat "$work/err") in
    *"tunes-book: "*"$1"* | "error: "*"$1"*) ;;
    *) wrong "'$words' complains by '$(head -n 2 "$work/err")', without '$1'" ;;
    esac
}

# Standard error has this text.
tells() {
    grep -qF -e "$1" "$work/err" ||
        wrong "'$words' tells '$(head -n 2 "$work/err")', without '$1'"
}

# The last command did what it was to do.
done_with() {
    ends_with 0
    says "$1"
    [ ! -s "$work/err" ] || wrong "'$words' writes to standard error: $(head -n 1 "$work/err")"
}

# The last command was refused, in words.
refused() {
    ends_with "$1"
    complains "$2"
}

same() { cmp -s -- "$1" "$2" || wrong "$1 is not what it should be, after '$words'"; }

# The folder has these files, and no others.
has() {
    there=$(find . ! -name . ! -type l | sed 's|^\./||' | LC_ALL=C sort | tr '\n' ' ')
    [ "$there" = "${1:+$1 }" ] || wrong "the files are '$there' in place of '$1', after '$words'"
}

end() {
    cd "$work" || exit 1
    left=$(ls -A "$TMPDIR")
    [ -z "$left" ] || wrong "working files are left: $left"
    rm -rf "${TMPDIR:?}"/*
    if [ -z "$why" ]; then
        printf 'ok      %s: %s\n' "$shell" "$title"
    else
        failures=$((failures + 1))
        printf 'FAILED  %s: %s: %s\n' "$shell" "$title" "$why"
    fi
}

skip() { printf 'skipped %s: %s: there is no %s here\n' "$shell" "$1" "$2"; }

# The last command listed this JSON, whatever its blanks are.
lists_json() {
    ends_with 0
    printf '%s\n' "$1" > "$work/wanted"
    python3 -c 'import json, sys
said, wanted = (json.load(open(path, encoding="utf-8")) for path in sys.argv[1:])
sys.exit(said != wanted)' "$work/out" "$work/wanted" 2> "$work/told" ||
        wrong "'$words' lists '$(head -n 3 "$work/out")' in place of '$1'"
    [ ! -s "$work/err" ] || wrong "'$words' writes to standard error: $(head -n 1 "$work/err")"
}

# The last command listed this CSV, whatever is quoted.
lists_csv() {
    ends_with 0
    printf '%s\n' "$1" > "$work/wanted"
    python3 -c 'import csv, sys
said, wanted = (list(csv.reader(open(path, encoding="latin-1", newline="")))
                for path in sys.argv[1:])
sys.exit(said != wanted)' "$work/out" "$work/wanted" 2> "$work/told" ||
        wrong "'$words' lists '$(head -n 3 "$work/out")' in place of '$1'"
    [ ! -s "$work/err" ] || wrong "'$words' writes to standard error: $(head -n 1 "$work/err")"
}

# The last command found nothing, and said so.
finds_none() {
    ends_with 0
    says ''
    complains 'no tune has that'
}

# What an archive has: its tunes with their numbers, and its set lists.
contents() {
    names=$(echo sets | "$program" run "$1" | sed '1d; s/ .*//; s/^/set-show /')
    printf '%s\n' export sets "$names" | "$program" run "$1"
}

# Runs a line of script on the archive.
by_script() { printf '%s\n' "$@" | "$program" run tunes.abcx > "$work/told"; }

# The editor is the script of standard input. A case may name another for a while.
editor() { cat > editor; }

# A program in the place of `tunes-desk`: standard input is its script, and $real is the true one.
fake_desk() {
    { printf '#!/bin/sh\nreal='\''%s'\''\n' "$desk" && cat; } > fake
    chmod +x fake
    TUNES_DESK=$PWD/fake
}

# A folder with links to all tools that tunes-book asks for, but those of these words.
tools_without() {
    mkdir -p bin
    for tool in awk cmp cp grep head mktemp readlink rm sh tail touch tr; do
        case " $* " in *" $tool "*) continue ;; esac
        found=$(command -v "$tool") && ln -s "$found" "bin/$tool"
    done
}

cases_of_words() {
    begin 'words'
    run
    refused 2 'no command is given'
    run help
    done_with "$("$root/tunes-book" --help)"
    [ "$(awk 'length > 79' "$work/out")" = '' ] || wrong 'the help has lines above 79 columns'
    run --version
    done_with "$("$desk" --version)"
    for line in 'list' '-x' '-f' 'show' 'show one' 'show 1234567890' 'new a' 'upgrade x' \
        '--json upgrade' 'cut friday' 'cut friday x' 'put friday' 'put fri/day 1' 'set a.b' 'find' \
        'find key' 'find --within' 'find --split a' 'add' 'add absent.abc' '--json show 1' \
        'move a 1' 'undo 1' 'export' 'hear 1' 'backup' 'restore' 'dump' 'load' 'titles x' \
        'add --within x' 'count --json' 'random --tune 1' 'find kesh --wait x' \
        'put a 1 --wait x' '--wait' 'export a b --tune 1' 'titles --json --csv' 'find --in D kesh' \
        'print a.pdf --tune x' 'ask x'; do
        run $line
        refused 2 ''
        [ ! -s "$work/out" ] || wrong "'$line' prints something"
    done
    has ''
    unset TUNES_BOOK
    run find kesh
    refused 2 'no archive is told'
    run -f '' find kesh
    refused 2 'empty'
    run -f '' put a 1
    refused 2 'empty'
    end

    begin 'an archive that is made'
    run new
    done_with ''
    run check
    done_with 'layout 2 tunes 0 sets 0'
    for word in titles sets; do
        run "$word"
        done_with ''
    done
    run find kesh
    finds_none
    run titles --json
    lists_json '[]'
    run new
    refused 3 'not empty'
    run -f other.abcx new
    done_with ''
    has 'other.abcx tunes.abcx'
    end

    begin 'files that are no archive'
    run find kesh
    refused 1 'no such file'
    run export a.abc
    refused 1 'no such file'
    run backup a.abcx
    refused 1 'no such file'
    mkdir tunes.abcx
    run titles
    refused 1 'no regular file'
    rmdir tunes.abcx
    cp "$book" tunes.abcx
    for line in 'titles' 'show 1' 'edit 1' 'delete 1' 'put a 1' 'export b.abc' 'dump b' 'check' \
        'backup b' 'upgrade' "add --dry $book" "add $book" 'count' 'random' 'ask'; do
        run $line
        refused 3 'no archive'
    done
    same tunes.abcx "$book"
    head -c 20000 "$work/session.abcx" > tunes.abcx
    run titles
    refused 3 'damaged'
    run backup b
    refused 3 'damaged'
    has tunes.abcx
    end
}

# Runs a command as somebody who may not open every file, as root may.
as_nobody() {
    setpriv --reuid=65534 --regid=65534 --clear-groups "$@" > "$work/out" 2> "$work/err" < /dev/null
}

cases_of_books() {
    begin 'adding a book, and all ways to list' 
    run new
    cp "$book" mine.abc
    run add mine.abc
    done_with 'mine.abc: tunes 1 to 15'
    run find kesh
    done_with '1 Kesh Jig, The'
    run find title kesh
    done_with '1 Kesh Jig, The'
    run find key Edor
    done_with '6 Drowsy Maggie
9 Fig for a Kiss, A'
    run find --within STAIRS up
    done_with '3 Tripping Up the Stairs'
    run find --within 'no such "words"'
    finds_none
    run find notes zz
    refused 1 'nothing is asked for'
    run find 'kesh
delete 1'
    finds_none
    run --csv find key Edor
    lists_csv 'number,title
6,Drowsy Maggie
9,"Fig for a Kiss, A"'
    run find --json kesh
    lists_json '[{"number": 1, "title": "Kesh Jig, The"}]'
    run titles
    ends_with 0
    echo titles | "$program" run tunes.abcx | sed 1d > "$work/wanted"
    same "$work/out" "$work/wanted"
    run check
    done_with 'layout 2 tunes 15 sets 0'
    run export all.abc
    done_with ''
    same all.abc "$work/session-book"
    run show 3
    ends_with 0
    sed -n '/^X:3$/,/^$/p' "$book" | sed '/^$/d' > "$work/wanted"
    same "$work/out" "$work/wanted"
    run show 16
    refused 1 'no tune has the number 16'
    has 'all.abc mine.abc tunes.abcx tunes.abcx.old.abc'
    end

    begin 'adding what is new' session
    cp "$book" mine.abc
    cp tunes.abcx before
    run add --new mine.abc
    done_with 'mine.abc: all its tunes are there already, 15'
    same tunes.abcx before
    printf '\nX:1\nT:o\0ne\nK:C\n\nX:2\nT:o\0ne\nK:C\n\nremark\n' >> mine.abc
    printf 'X:1\nT:o\0ne\nK:C\n\nX:2\nT:two\nK:C\n' > more.abc
    printf 'X:1\nT:bad\n' > bad.abc
    run add --new mine.abc bad.abc more.abc
    refused 1 'bad.abc: its tune number 1 has no K: line'
    says 'mine.abc: tune 16; 16 of its tunes are there already; '\
'1 line of it goes into no tune, and is not kept
more.abc: tune 17; 1 of its tunes are there already'
    run add --new --dry mine.abc more.abc "$book"
    done_with "mine.abc: all its tunes are there already, 17
more.abc: all its tunes are there already, 2
$book: all its tunes are there already, 15"
    run show 16
    printf 'X:16\nT:o\0ne\nK:C\n' > wanted
    same "$work/out" wanted
    run add --new --split mine.abc
    refused 2 'not both'
    end

    begin 'titles of any bytes, as JSON and CSV'
    printf 'X:1\nT:q "b", \\ c\nK:C\n\nX:2\nK:C\n\n' > a.abc
    printf 'X:3\nT:\351 \303\251 \342\231\257 \360\235\204\236 \355\240\200 \001\nK:C\n' >> a.abc
    run new
    run add a.abc
    done_with 'a.abc: tunes 1 to 3'
    run put x 2 1
    run --csv set x
    lists_csv 'place,number,title
1,2,
2,1,"q ""b"", \ c"'
    run --json set x
    lists_json '[
{"place": 1, "number": 2, "title": null},
{"place": 2, "number": 1, "title": "q \"b\", \\ c"}
]'
    run --json sets
    lists_json '[{"name": "x", "places": 2}]'
    run sets --csv
    lists_csv 'name,places
x,2'
    # Bytes that are no UTF-8 are taken for Latin-1.
    run --json titles
    lists_json '[
{"number": 1, "title": "q \"b\", \\ c"},
{"number": 3, "title": "\u00e9 \u00e9 \u266f \ud834\udd1e \u00ed\u00a0\u0080 \u0001"}
]'
    end

    begin 'folders of books'
    run new
    mkdir empty 'fol der'
    run add empty
    refused 2 'there is no .abc file'
    printf 'X:1\nT:b\nK:C\n' > 'fol der/b.abc'
    printf 'X:1\nT:B\nK:C\n' > 'fol der/B.abc'
    printf 'X:1\nT:none\n' > 'fol der/a.abc'
    echo 'X:1' > 'fol der/readme.txt'
    mkdir -p inner/in/most
    printf 'X:1\nT:c\nK:C\n' > inner/c.ABC
    printf 'X:1\nT:d\nK:C\n' > inner/in/most/d.abc
    run add 'fol der' absent.abc
    refused 2 'absent.abc: there is no such file'
    run check
    done_with 'layout 2 tunes 0 sets 0'
    run add 'fol der'
    refused 1 'a.abc: its tune number 1 has no K: line'
    says 'fol der/B.abc: tune 1
fol der/b.abc: tune 2'
    run import-check 'fol der'
    ends_with 1
    tells 'fol der/a.abc:1: '
    says 'fol der/B.abc: 1 tune
fol der/b.abc: 1 tune'
    run add --dry "$book"
    done_with "$book: 15 tunes"
    run check
    done_with 'layout 2 tunes 2 sets 0'
    run add inner
    ends_with 0
    grep -q '^inner/c.ABC: tune ' "$work/out" || wrong 'a book .ABC is passed over'
    grep -q '^inner/in/most/d.abc: tune ' "$work/out" ||
        wrong 'a folder within a folder is passed over'
    echo 'a remark' > remark.abc
    run import-check remark.abc
    ends_with 1
    tells 'remark.abc'
    end

    begin 'names with blanks and line feeds, and of options'
    odd='my tunes
of "all"'
    run -f "$odd" new
    done_with ''
    printf 'X:1\nT:a\nK:C\n' > "$odd.abc"
    cp "$odd.abc" -- -n.abc
    run -f "$odd" add -- "$odd.abc" -n.abc
    done_with "$odd.abc: tune 1
-n.abc: tune 2"
    run -f "$odd" export "out $odd"
    done_with ''
    run -f "$odd" export -- -o.abc
    done_with ''
    same ./-o.abc "out $odd"
    # what has the sums has one name on a line
    run -f "$odd" backup "copy $odd"
    refused 2 'choose one on one line'
    run -f "$odd" backup 'copy of "all"'
    done_with ''
    run -f "$odd" restore 'copy of "all"'
    ends_with 0
    run -f "$odd" delete 1
    done_with ''
    run -f "$odd" undo
    done_with 'tune 1 is there again'
    run -f "$odd" dump "script $odd"
    done_with ''
    run -f -new.abcx load "script $odd"
    done_with 'layout 2 tunes 2 sets 0'
    [ -s -new.abcx ] || wrong 'an archive with a dash in front is not there'
    EDITOR='sed -i s/T:a/T:b/'
    run -f "$odd" edit 1
    done_with 'tune 1 has revision 2 now'
    end

    begin 'books with NUL, carriage returns and a byte order mark'
    run new
    {
        printf '\357\273\277%%abc-2.1\r\nM:6/8\r\nT:all\r\n\r\nX:9\rT:o\0ne\rK:C\r\n\r\nremark\r\n'
        printf 'X:8\nK:D\n%%\0\351\377'
    } > a.abc
    run add a.abc
    done_with 'a.abc: tunes 1 to 2; 2 lines of it go into no tune, and are not kept'
    printf '%%abc-2.1\n\nX:1\nT:o\0ne\nM:6/8\nK:C\n\nX:2\nM:6/8\nK:D\n%%\0\351\377\n' > wanted
    run export b.abc
    done_with ''
    same b.abc wanted
    EDITOR='sed -i s/T:o/T:p/'
    run edit 1
    done_with 'tune 1 has revision 2 now'
    sed 's/T:o/T:p/' wanted > wanted.new
    run export --force b.abc
    same b.abc wanted.new
    run undo
    done_with 'tune 1 has revision 3 now'
    run delete 2
    done_with ''
    run undo
    done_with 'tune 2 is there again'
    run export b.abc --force
    same b.abc wanted
    run dump s
    run -f new.abcx load s
    ends_with 0
    run -f new.abcx export --force b.abc
    same b.abc wanted
    end

    begin 'lines that are not kept are counted'
    run new
    for form in '0 X:1\nK:C\n' \
        '2 remark\n\nX:1\nK:C\n\nW:verse\n' \
        '3 free text\nM:4/4\nR:jig\n\nX:1\nK:C\n' \
        '1 M:4/4\nX:1\nK:C\n' \
        '2 %%abc-2.1\nI:abc-charset utf-8\nI:linebreak $\n%% a\n%%%%staves 1\n\nX:1\nK:C\n' \
        '1 M:4/4\n+:more\nR:jig\n\nX:1\nR:reel\nK:C\n\nX:2\nR:jig\nM:2/4\nK:C\nR:in the body\n'; do
        # shellcheck disable=SC2059 # a form
        printf "${form#* }" > a.abc
        run import-check a.abc
        ends_with 0
        case ${form%% *}.$(cat "$work/out") in
        0.*[0-9]' tune' | 1.*' 1 line of'* | "${form%% *}."*" ${form%% *} lines of"*) ;;
        *) wrong "of '$form' it says '$(cat "$work/out")'" ;;
        esac
        [ "$(grep -c '^tunes-book: a\.abc:[0-9]*: it is in no tune' "$work/err")" -eq \
            "${form%% *}" ] ||
            wrong "of '$form' it tells '$(cat "$work/err")'"
        run add a.abc
        ends_with 0
        case ${form%% *}.$(cat "$work/out") in
        0.*' tune '*[0-9] | 1.*' 1 line of'* | "${form%% *}."*" ${form%% *} lines of"*) ;;
        *) wrong "of '$form' add says '$(cat "$work/out")'" ;;
        esac
    done
    # by their numbers, also from standard input
    printf 'remark\n\nX:1\nK:C\n\nverse\n\nX:2\nT:bad\n\nlast' > a.abc
    $shell "$root/tunes-book" import-check - < a.abc > "$work/out" 2> "$work/err"
    status=$?
    words='import-check -'
    ends_with 1
    for line in 1 6 11; do tells "-:$line: "; done
    end

    begin 'the good tunes of a book, and lines between tunes'
    run new
    printf 'X:1\nT:one\nK:C\n\nX:2\nT:bad\n\nX:3\nT:three\nK:C\n' > mine.abc
    run add mine.abc
    refused 1 'its tune number 2 has no K: line'
    run add --good mine.abc
    ends_with 0
    says 'mine.abc: tunes 1 to 2; 1 of its tunes are left out'
    tells 'mine.abc:5: tune 2 has no K: line, and is left out'
    run show 2
    says 'X:2
T:three
K:C'
    printf 'remark\n\nX:1\nT:one\nK:C\n\n%%%%gchord 1\n\nX:2\nT:two\nK:C\n' > lines.abc
    run add --show-lost lines.abc
    ends_with 0
    says 'lines.abc: tunes 3 to 4; 2 lines of it go into no tune, and are not kept'
    tells 'lines.abc:1: it is in no tune, and is not kept: remark'
    tells 'lines.abc:7: it is in no tune, and is not kept, though it changes how a sheet looks'
    run add --carry lines.abc
    ends_with 0
    grep -q '; 1 line between its tunes goes into 1 of them' "$work/out" ||
        wrong "--carry says '$(cat "$work/out")'"
    run show 6
    grep -q '^%%gchord 1$' "$work/out" || wrong 'a line between tunes is not carried'
    run undo
    done_with 'tunes 5 to 6 are out again'
    end

    begin 'a book that is too long, and its parts'
    # of 4,250,000 bytes, in parts that are full once they have 1,000,000
    run new
    awk 'BEGIN {
        print "M:6/8\n%%staves 1\n"
        for (i = 1; i <= 400; i++) {
            printf "X:%d\nT:tune %d\n", i, i
            if (i % 2) print "M:4/4"
            print "K:C"
            for (j = 0; j < 200; j++) print "abcdefgabcdefgabcdefgabcdefgabcdefgabcdefgabcdefgabc"
            print ""
        }
    }' > long.abc
    run add "$book" long.abc
    refused 1 'long.abc: it has more than 4,000,000 bytes; `tunes-book add --split`'
    run add --split long.abc "$book"
    done_with "long.abc: tunes 16 to 415, in 5 parts
$book: tunes 416 to 430"
    run show 16
    head -n 3 "$work/out" > "$work/found"
    printf 'X:16\nT:tune 1\nM:4/4\n' > "$work/wanted"
    same "$work/found" "$work/wanted"
    run show 415
    head -n 5 "$work/out" > "$work/found"
    printf 'X:415\nT:tune 400\nM:6/8\n%%%%staves 1\nK:C\n' > "$work/wanted"
    same "$work/found" "$work/wanted"
    printf 'X:1\nT:bad\n' >> long.abc
    run add --dry --split long.abc
    refused 1 'long.abc: its tune number 401 has no K: line'
    # old Mac lines, and no file header
    sed '1,3d; $d' long.abc | sed '$d' | tr '\n' '\r' > mac.abc
    run add --dry --split mac.abc
    done_with 'mac.abc: 400 tunes, in 5 parts'
    end

    begin 'a book that cannot be read'
    printf 'X:1\nK:C\n' > a.abc
    cp a.abc b.abc
    chmod 0 a.abc
    chmod 755 .
    if [ "$(id -u)" -ne 0 ]; then
        run import-check a.abc b.abc
    elif as_nobody "$desk" --version && as_nobody head -c 1 "$root/tunes-book"; then
        as_nobody $shell "$root/tunes-book" import-check a.abc b.abc
        status=$?
        words='import-check a.abc b.abc'
    else
        echo a.abc > "$work/err"
        echo 'b.abc: 1 tune' > "$work/out"
        status=1
    fi
    ends_with 1
    tells a.abc
    says 'b.abc: 1 tune'
    end
}

cases_of_sets() {
    begin 'set lists' session
    run put friday 3 1
    done_with ''
    run put friday 005 1
    done_with ''
    run set friday
    done_with '1 3 Tripping Up the Stairs
2 1 Kesh Jig, The
3 5 Blarney Pilgrim, The
4 1 Kesh Jig, The'
    run sets
    done_with 'friday 4'
    run put friday 2 99 4
    refused 1 'tune 99: no tune has the number 99'
    run put new 99
    refused 1 'no tune has the number 99'
    run sets
    done_with 'friday 4'
    run put "$(printf '%041d' 1)" 1
    refused 1 '1 to 40 letters'
    run put friday 0
    refused 1 'no tune has the number 0'
    run cut friday 2
    done_with ''
    run cut friday 9
    refused 1 'no such place'
    run cut saturday 1
    refused 1 'no such set list'
    run set saturday
    refused 1 'no such set list'
    run delete 3
    refused 1 'tune 3: the set list friday has it'
    run delete 4 3
    refused 1 'tune 3: the set list friday has it'
    run undo
    done_with 'friday is as it was'
    run set friday
    [ "$(($(wc -l < "$work/out")))" -eq 4 ] || wrong 'a place that was cut is not there again'
    run export friday.abc friday
    done_with ''
    [ "$(sed -n 2p friday.abc)" = '% set friday' ] || wrong 'friday.abc is another book'
    cp friday.abc wanted
    run export --force friday.abc saturday
    refused 1 'no such set list'
    same friday.abc wanted
    run drop friday
    done_with ''
    run drop friday
    refused 1 'no such set list'
    run sets
    done_with ''
    end

    begin 'moving in a set list' session
    for from in 1 2 3 4 5; do
        for to in 1 3 5; do
            by_script 'set-drop a' 'set-new a' 'set-add a 1' 'set-add a 2' 'set-add a 3' \
                'set-add a 4' 'set-add a 2'
            run move a "$from" "$to"
            done_with ''
            printf '1\n2\n3\n4\n2\n' | awk -v from="$from" -v to="$to" '
                { tune[NR] = $1 }
                END {
                    moved = tune[from]
                    if (from < to) for (i = from; i < to; i++) tune[i] = tune[i + 1]
                    else for (i = from; i > to; i--) tune[i] = tune[i - 1]
                    tune[to] = moved
                    for (i = 1; i <= 5; i++) print tune[i]
                }' > "$work/wanted"
            echo 'set-show a' | "$program" run tunes.abcx | sed 1d | cut -d ' ' -f 2 > "$work/found"
            same "$work/found" "$work/wanted"
        done
    done
    run move a 0 1
    refused 1 'a: the set list has no such place; `tunes-book set` shows its places'
    run move a 1 6
    refused 1 'no such place'
    run move b 1 2
    refused 1 'no such set list'
    # a full set list
    awk 'BEGIN {
        print "set-new full"
        for (i = 0; i < 200; i++) print "set-add full " i % 15 + 1
    }' | "$program" run tunes.abcx > "$work/told"
    run move full 2 200
    done_with ''
    run set full
    [ "$(sed -n '2p; 200p' "$work/out" | cut -d ' ' -f 1,2 | tr '\n' ' ')" = '2 3 200 2 ' ] ||
        wrong 'place 2 is not at the end'
    run put full 1
    refused 1 'full: the set list has 200 places, and no more; begin a second one'
    end
}

# An edit by these words of sed is not put in, for this reason.
left_out() {
    printf '%s\n' "sed -i '$1' \"\$1\"; cp \"\$1\" written" | editor
    run edit 3
    refused 1 "$2"
    case $(cat "$work/err") in
    *'your text '*tune-3.abc*) ;;
    *) wrong "after '$1' it does not say where the text is" ;;
    esac
    same tune-3.abc written
    rm -f tune-3.abc
}

cases_of_edits() {
    begin 'editors' session
    run show 3
    cp "$work/out" shown
    editor < /dev/null
    run edit 3
    done_with 'tune 3 is not changed'
    echo "sed -i 's/^R:.*/R:slide/' \"\$1\"; cp \"\$1\" seen; echo \"\$LC_ALL\" > locale" | editor
    export LC_ALL=C.UTF-8
    run edit 003
    unset LC_ALL
    done_with 'tune 3 has revision 2 now'
    [ "$(cat locale)" = C.UTF-8 ] || wrong 'the editor has another locale'
    run show 3
    same "$work/out" seen
    export VISUAL='sed -i s/slide/jig/'
    run edit 3
    unset VISUAL
    done_with 'tune 3 has revision 3 now'
    run show 3
    same "$work/out" shown
    # empty lines at the end change nothing, and are allowed
    printf '%s\n' 'printf "\n \n" >> "$1"; sed -i s/jig/reel/ "$1"' | editor
    run edit 3
    done_with 'tune 3 has revision 4 now'
    printf '%s\n' 'printf "W:\r\nW:last" >> "$1"' | editor
    run edit 3
    done_with 'tune 3 has revision 5 now'
    run show 3
    [ "$(tail -n 1 "$work/out")" = 'W:last' ] || wrong 'the last line is not kept'
    run edit 99
    refused 1 'no tune has the number 99'
    rm editor
    has 'locale seen shown tunes.abcx tunes.abcx.old.abc'
    end

    begin 'editors that leave something out' session
    cp tunes.abcx before
    printf '%s\n' 'sed -i "9s/\$/\n/" "$1"; cp "$1" written' | editor
    run edit 3
    refused 1 'these lines would not be kept'
    grep -q '^    .*efe edc|$' "$work/err" || wrong 'a line that is lost is not shown'
    same tune-3.abc written
    run edit 3
    refused 1 'tune-3.abc is there'
    EDITOR='cp written'
    run edit 3
    refused 1 'tune-3.abc is there'
    same tune-3.abc written
    rm tune-3.abc
    EDITOR='sh ./editor'
    left_out '/^X:/d' 'no line begins with X:'
    left_out '/^K:/d' 'has no K: line'
    left_out '$s/$/\nX:2\nK:C/' 'more tunes than one'
    left_out '1s/^/T:lost\n/' 'would not be kept'
    left_out '$s/$/\n\nW:verse/' 'would not be kept'
    left_out '1,$d' 'no line begins with X:'
    same tunes.abcx before
    [ ! -e tunes.abcx.old.abc ] || wrong 'an old text is kept though nothing is changed'
    end

    begin 'editors that fail, and one that is stopped' session
    cp tunes.abcx before
    echo 'exit 1' | editor
    run edit 3
    refused 1 'the editor ended with status 1; tune 3 is not changed'
    EDITOR=no-such-editor run edit 3
    refused 1 'the editor ended with status 127; tune 3 is not changed'
    has 'before editor tunes.abcx'
    EDITOR='sh ./editor'
    echo 'echo W:more >> "$1"; cp "$1" written; exit 3' | editor
    run edit 3
    refused 1 'the editor ended with status 3'
    same tune-3.abc written
    rm tune-3.abc
    echo 'echo W:more >> "$1"; cp "$1" written; kill -s INT $$; sleep 5' | editor
    run edit 3
    refused 1 'your text stays in tune-3.abc'
    same tune-3.abc written
    # an interrupt of the terminal goes to both
    rm tune-3.abc
    if command -v python3 > /dev/null; then
        echo 'echo W:more >> "$1"; cp "$1" written; kill -s INT 0; sleep 5' | editor
            python3 -c 'import os, signal, subprocess, sys
signal.signal(signal.SIGINT, signal.default_int_handler)
sys.exit(subprocess.run(sys.argv[1:], start_new_session=True).returncode)' \
            $shell "$root/tunes-book" edit 3 > "$work/out" 2> "$work/err"
        status=$?
        refused 1 'your text stays in tune-3.abc'
        same tune-3.abc written
        rm tune-3.abc
    fi
    # one that takes the file away
    echo 'echo W:more >> "$1"; mv "$1" away' | editor
    run edit 3
    refused 1 'tune-3.abc is gone, by the editor'
    same tunes.abcx before
    end

    begin 'a tune that is replaced meanwhile' session
    cat > other << 'END'
{ echo "replace 3 1 19"; printf 'X:1\nT:other\nK:C\nab\n'; } | "$TUNES" run tunes.abcx > told
END
    echo 'sh ./other; sed -i s/^R:.*/R:slide/ "$1"; cp "$1" written' | editor
    run edit 3
    refused 1 'tune 3 was replaced meanwhile; `tunes-book show 3` prints it'
    same tune-3.abc written
    run show 3
    says 'X:3
T:other
K:C
ab'
    run undo
    refused 1 'nothing is to be undone'
    mv tune-3.abc mine.abc
    EDITOR='cp mine.abc'
    run edit 3
    done_with 'tune 3 has revision 3 now'
    run show 3
    same "$work/out" mine.abc
    # deleted meanwhile
    EDITOR='sh ./editor'
    echo 'echo delete 4 | "$TUNES" run tunes.abcx > told; echo W:more >> "$1"' | editor
    run edit 4
    refused 1 'no tune has the number 4'
    [ -s tune-4.abc ] || wrong 'the text is lost'
    # a program has the archive open when the editor is left
    if command -v flock > /dev/null; then
        editor << 'END'
echo W:more >> "$1"
cp "$1" written
flock tunes.abcx sh -c ': > locked; while [ ! -e over ]; do sleep 0.05; done' &
while [ ! -e locked ]; do sleep 0.05; done
END
        run edit 5
        refused 1 'another program has it open'
        grep -q 'your text stays in tune-5.abc' "$work/err" || wrong 'it does not say where it is'
        same tune-5.abc written
        : > over
        flock tunes.abcx true
    fi
    end
}

cases_of_undo() {
    begin 'undoing replaces and deletes' session
    run export was.abc
    run undo
    refused 1 'nothing is to be undone'
    EDITOR='sed -i s/^R:.*/R:one/'
    run edit 3
    EDITOR='sed -i s/^R:.*/R:two/'
    run edit 3
    run delete 7
    done_with ''
    run undo
    done_with 'tune 7 is there again'
    run undo
    done_with 'tune 3 has revision 4 now'
    run show 3
    grep -q '^R:one$' "$work/out" || wrong 'the last replace is not undone'
    run undo
    done_with 'tune 3 has revision 5 now'
    run export is.abc
    same is.abc was.abc
    run undo
    refused 1 'nothing is left to be undone'
    # every text is there
    for rhythm in jig one two; do
        grep -q "^R:$rhythm\$" tunes.abcx.old.abc || wrong "the text of R:$rhythm is lost"
    done
    # the old texts are a book
    run import-check tunes.abcx.old.abc
    ends_with 0
    # a number that another tune has meanwhile
    run delete 7
    by_script 'renumber 15 7'
    run undo
    refused 1 'tune 7 was changed since by another program, so it stays; its old text is in tunes.'
    # a tune that is gone
    EDITOR='sed -i s/^R:.*/R:one/'
    run edit 2
    by_script 'delete 2'
    run undo
    refused 1 'its old text is in tunes.abcx.old.abc'
    end

    begin 'undoing what was added' session
    contents tunes.abcx > wanted
    printf 'X:1\nT:one\nK:C\n\nX:2\nT:two\nK:C\n' > two.abc
    printf 'X:1\nT:three\nK:C\n' > one.abc
    run add two.abc one.abc
    done_with 'two.abc: tunes 16 to 17
one.abc: tune 18'
    run undo --list
    done_with '1 add tunes 16 to 18'
    run undo
    done_with 'tune 18 is out again
tunes 16 to 17 are out again'
    contents tunes.abcx > found
    same found wanted
    run add two.abc
    run put friday 16
    run undo --to 2
    done_with 'friday is gone again
tunes 16 to 17 are out again'
    # where a set list has one meanwhile all of them stay, until that is gone
    run add two.abc
    by_script 'set-new x' 'set-add x 16'
    contents tunes.abcx > held
    cp tunes.abcx.old.abc held.old.abc
    run undo
    refused 1 'tune 16: the set list x has it'
    contents tunes.abcx > found
    same found held
    same tunes.abcx.old.abc held.old.abc
    by_script 'set-drop x'
    run undo
    done_with 'tunes 16 to 17 are out again'
    contents tunes.abcx > found
    same found wanted
    # what was taken out by an undo is in the old texts
    grep -q '^T:three$' tunes.abcx.old.abc || wrong 'a text that an undo takes away is not kept'
    end

    begin 'undoing a load' session
    run put friday 3 1
    run dump all.script
    run -f new.abcx load all.script
    done_with 'layout 2 tunes 15 sets 1'
    run -f new.abcx undo --list
    done_with '1 load tunes 1 to 15 and 1 set list'
    run -f new.abcx delete 7
    run -f new.abcx undo --to 2
    done_with 'tune 7 is there again
friday is gone again
tunes 1 to 15 are out again'
    run -f new.abcx check
    done_with 'layout 2 tunes 0 sets 0'
    run -f new.abcx undo
    refused 1 'nothing is left to be undone'
    grep -q '^T:.*Kesh' new.abcx.old.abc || wrong 'a text that an undo takes away is not kept'
    # an archive in which nothing is has no entry, and one that is not made leaves none
    run -f empty.abcx new
    run -f empty.abcx dump -
    cp "$work/out" empty.script
    run -f other.abcx load empty.script
    done_with 'layout 2 tunes 0 sets 0'
    run -f bad.abcx load remark.abc
    [ ! -e other.abcx.old.abc ] && [ ! -e bad.abcx.old.abc ] || wrong 'there is a book of old texts'
    end

    begin 'undoing set lists, and several changes' session
    contents tunes.abcx > wanted
    run undo --list
    done_with ''
    run put friday 3 1 5
    run move friday 3 1
    run cut friday 1 2
    run set friday
    done_with '1 1 Kesh Jig, The'
    run drop friday
    run delete 7 9
    done_with ''
    run undo --list
    done_with '1 delete tune 7 9
2 drop friday
3 cut friday
4 move friday
5 put friday'
    run undo --list --json
    lists_json '[{"change": 1, "kind": "delete", "of": "tune 7 9"},
        {"change": 2, "kind": "drop", "of": "friday"},
        {"change": 3, "kind": "cut", "of": "friday"},
        {"change": 4, "kind": "move", "of": "friday"},
        {"change": 5, "kind": "put", "of": "friday"}]'
    run undo --csv --list
    ends_with 0
    [ "$(head -n 2 "$work/out" | tr '\n' ' ')" = 'change,kind,of 1,delete,tune 7 9 ' ] ||
        wrong "undo --csv --list begins with '$(head -n 2 "$work/out")'"
    run undo
    ends_with 0
    run undo --to 2
    done_with 'friday is as it was
friday is as it was'
    run set friday
    done_with '1 5 Blarney Pilgrim, The
2 3 Tripping Up the Stairs
3 1 Kesh Jig, The'
    run undo --to 2
    done_with 'friday is as it was
friday is gone again'
    run sets
    done_with ''
    contents tunes.abcx > found
    same found wanted
    for line in 'undo --list --to 1' 'undo --json' 'undo --to' 'undo --to x'; do
        run $line
        refused 2 ''
    done
    run undo --to 2
    refused 1 'nothing is left to be undone'
    end

    begin 'old texts that are cut, and texts like marks' session
    by_script 'delete 3'
    printf 'X:1\nT:marks\nK:C\n%% tunes-book undone\n%% tunes-book replace 1 1 5\nX\n' > a.abc
    run add a.abc
    done_with 'a.abc: tune 16'
    cp tunes.abcx before
    EDITOR='sed -i s/marks/other/'
    run edit 16
    run undo
    done_with 'tune 16 has revision 3 now'
    run show 16
    sed 1d "$work/out" > found
    sed 1d a.abc > wanted
    same found wanted
    run delete 16
    printf '\n%% tunes-book replace 1 1 500\nX:1\nK:C\n' >> tunes.abcx.old.abc
    run undo
    done_with 'tune 16 is there again'
    [ ! -e /dev/full ] || {
        rm tunes.abcx.old.abc
        ln -s /dev/full tunes.abcx.old.abc
        cp tunes.abcx before
        run delete 1
        refused 1 'could not be kept in tunes.abcx.old.abc'
        EDITOR='sed -i s/^R:.*/R:one/'
        run edit 1
        refused 1 'could not be kept in tunes.abcx.old.abc'
        [ -s tune-1.abc ] || wrong 'the text of the edit is lost'
        same tunes.abcx before
    }
    end
}

cases_of_copies() {
    begin 'backup and restore' session
    run put friday 3 1
    run backup copy.abcx
    done_with ''
    same copy.abcx tunes.abcx
    sha256sum -c copy.abcx.sha256 > "$work/told" 2>&1 || wrong 'the sum beside a copy is another'
    contents tunes.abcx > wanted
    run drop friday
    run delete 3
    # a second copy of that name has a number
    run backup copy.abcx
    done_with 'the copy is copy.abcx.1'
    same copy.abcx.1 tunes.abcx
    sha256sum -c copy.abcx.1.sha256 > "$work/told" 2>&1 || wrong 'the sum of a second copy'
    run check copy.abcx
    done_with 'layout 2 tunes 15 sets 1'
    run check copy.abcx.1
    done_with 'layout 2 tunes 14 sets 0'
    # of three the last two stay
    run backup copy.abcx --keep 2
    done_with 'the copy is copy.abcx.2'
    [ ! -e copy.abcx ] && [ ! -e copy.abcx.sha256 ] || wrong '--keep 2 keeps three'
    [ -e copy.abcx.1 ] && [ -e copy.abcx.2 ] || wrong '--keep 2 keeps one'
    run backup copy.abcx --keep 0
    refused 2 'a number from 1'
    by_script 'set-new friday' 'set-add friday 3' 'set-add friday 1'
    rm copy.abcx.*
    end

    begin 'a copy and its sum' session
    run put friday 3 1
    run backup copy.abcx
    contents tunes.abcx > wanted
    run drop friday
    run delete 3
    cp tunes.abcx later
    run restore copy.abcx
    done_with 'layout 2 tunes 15 sets 1
the archive that was there is tunes.abcx.1.old now'
    contents tunes.abcx > found
    same found wanted
    same tunes.abcx.1.old later
    head -c 20000 copy.abcx > cut.abcx
    cp tunes.abcx before
    run restore cut.abcx
    refused 3 'damaged'
    run check cut.abcx
    refused 3 'damaged'
    cp later other.abcx
    sed 's/copy/other/' copy.abcx.sha256 > other.abcx.sha256
    for line in 'restore other.abcx' 'check other.abcx'; do
        run $line
        refused 1 'its bytes are not those whose sum is beside it'
        same tunes.abcx before
    done
    rm other.abcx*
    run restore absent.abcx
    refused 1 'no such file'
    same tunes.abcx before
    # over a damaged archive, and over none
    cp cut.abcx tunes.abcx
    run restore copy.abcx
    ends_with 0
    same tunes.abcx.2.old cut.abcx
    rm tunes.abcx
    run restore copy.abcx
    done_with 'layout 2 tunes 15 sets 1'
    has "before copy.abcx copy.abcx.sha256 cut.abcx found later tunes.abcx tunes.abcx.1.old \
tunes.abcx.2.old tunes.abcx.old.abc wanted"
    end

    begin 'dump and load' session
    run new
    by_script 'renumber 15 900' 'renumber 1 2000' 'delete 7' 'set-new friday' \
        'set-add friday 900' 'set-add friday 3' 'set-add friday 900' 'set-new 0_-z' \
        'set-new set-show' 'set-add set-show 2000'
    run dump all.script
    done_with ''
    run -f new.abcx load all.script
    done_with 'layout 2 tunes 14 sets 3'
    contents tunes.abcx > wanted
    contents new.abcx > found
    same found wanted
    run -f new.abcx dump again.script
    same again.script all.script
    run -f new.abcx load all.script
    refused 1 'new.abcx is there'
    head -c 900 all.script > cut.script
    run -f other.abcx load cut.script
    refused 1 'a command of it is refused'
    run -f other.abcx load "$book"
    refused 1 ''
    run -f other.abcx load absent
    refused 2 'no such file'
    $shell "$root/tunes-book" -f piped.abcx load - < all.script > "$work/out" 2> "$work/err"
    status=$?
    words='load -'
    done_with 'layout 2 tunes 14 sets 3'
    [ ! -e other.abcx ] && [ ! -e other.abcx.new ] || wrong 'something is made of a bad script'
    run -f empty.abcx new
    run -f empty.abcx dump empty.script
    done_with ''
    run -f other.abcx load empty.script
    done_with 'layout 2 tunes 0 sets 0'
    # the same from replies of `tunes` alone
    "$program" make by-hand.abcx > told
    "$program" run by-hand.abcx < all.script > told
    contents by-hand.abcx > found
    same found wanted
    end

    begin 'dumps of odd tunes'
    run new
    # lines that end in CR LF, bytes that are no UTF-8, and a number as the text of a tune
    printf 'X:7\r\nT:Caf\351\r\nK:D\r\nabc\r\n\r\nX:8\r\nT:\377\376\r\nK:G\r\n' > odd.abc
    printf 'X:1\nT:import 3\nK:C\nabc\n%%X:2\n\n%%abc-2.1\nX:2\nT:B\nK:C\n' > more.abc
    run add odd.abc more.abc
    ends_with 0
    dumps_again 'layout 2 tunes 4 sets 0'
    # one tune, of the number 1, of another, and of the greatest
    by_script 'delete 2' 'delete 3' 'delete 4'
    dumps_again 'layout 2 tunes 1 sets 0'
    by_script 'renumber 1 2'
    dumps_again 'layout 2 tunes 1 sets 0'
    by_script 'renumber 2 999999' 'set-new only' 'set-add only 999999' 'set-add only 999999'
    dumps_again 'layout 2 tunes 1 sets 1'
    # a gap behind each tune, and tunes in a row behind a gap
    by_script 'renumber 999999 1'
    run add odd.abc more.abc odd.abc
    by_script 'renumber 2 10' 'renumber 3 20' 'renumber 7 30' 'renumber 6 29' 'set-new none' \
        'set-new A' 'set-add A 30' 'set-add A 1' 'set-add A 30'
    dumps_again 'layout 2 tunes 7 sets 3'
    end

    begin 'dumps of layout 1' one
    by_script 'renumber 2 9'
    dumps_again 'layout 2 tunes 2 sets 1'
    end

    begin 'dumps of many bytes'
    run new
    # 41 tunes of 60,000 bytes: more than two books of 1,000,000
    awk 'BEGIN {
        for (line = 1; line < 600; line++) body = body sprintf("%099d|\n", line)
        for (tune = 1; tune <= 41; tune++) print "X:" tune "\nT:Tune " tune "\nK:C\n" body
    }' > long.abc
    run add long.abc
    ends_with 0
    dumps_again 'layout 2 tunes 41 sets 0'
    [ "$(grep -c '^import ' a.script)" -eq 3 ] || wrong 'the books are cut elsewhere'
    [ "$(sed -n 's/^import //p' a.script | sort -n | tail -n 1)" -lt 1064100 ] ||
        wrong 'a book is too long'
    by_script 'renumber 20 100'
    dumps_again 'layout 2 tunes 41 sets 0'
    end
}

# The archive that its dump makes holds so much, and the same, and has the same dump.
dumps_again() {
    rm -f a.script b.script again.abcx
    run dump a.script
    done_with ''
    run -f again.abcx load a.script
    done_with "$1"
    contents tunes.abcx > wanted
    contents again.abcx > found
    same found wanted
    run -f again.abcx dump b.script
    same b.script a.script
}

# Runs ./tunes-book at a terminal, where the first word is answered to what it asks.
at_terminal() {
    words="$*, at a terminal"
    python3 -c 'import os, pty, sys
answer, *words = sys.argv[1:]
child, terminal = pty.fork()
if child == 0:
    os.execvp(words[0], words)
said = b""
try:
    while not said.endswith(b"y or n: "):
        said += os.read(terminal, 1000)
    os.write(terminal, answer.encode() + b"\n")
    while True:
        said += os.read(terminal, 1000)
except OSError:
    pass
sys.stdout.buffer.write(said.replace(b"\r", b""))
sys.exit(os.waitstatus_to_exitcode(os.waitpid(child, 0)[1]))' \
        "$1" $shell "$root/tunes-book" upgrade > "$work/out" 2> "$work/err"
    status=$?
}

# Runs ./tunes-book at a terminal, whose output goes into the file $1.
seen_at_terminal() {
    seen=$1
    shift
    SEEN=$seen python3 -c 'import os, pty, sys
open(os.environ["SEEN"] + ".begun", "w").close()
sys.exit(os.waitstatus_to_exitcode(pty.spawn(sys.argv[1:])))' \
        $shell "$root/tunes-book" --wait 5 "$@" > "$seen" 2>&1 < /dev/null
}

# The file $1 has a line of how far a command is, $2, then its erasure and $3, and no more.
tells_how_far() {
    case $(od -An -v -c "$1" | tr -d ' \n') in
    *tunes-book:$2'\r033[K'"$3") ;;
    *) wrong "'$1' does not tell how far it is, or leaves that on the terminal" ;;
    esac
}

# Other programs have the archives for the second in which nothing is told.
cases_of_progress() {
    if ! command -v flock > /dev/null; then
        skip 'how far a command is' flock
        return
    fi
    begin 'how far a command is' session
    words='commands for more than a second'
    cp tunes.abcx more.abcx
    printf 'X:1\nT:One\nK:C\nCDE\n' > one.abc
    printf 'X:1\nT:Two\nK:C\nEDC\n' > two.abc
    flock tunes.abcx flock more.abcx sh -c 'echo > locked
until [ -e backup.begun ] && [ -e export.begun ] && [ -e add.begun ]; do sleep 0.05; done
sleep 1.2' &
    while [ ! -e locked ]; do sleep 0.05; done
    seen_at_terminal backup backup copy &
    seen_at_terminal export export all.abc &
    seen_at_terminal add -f more.abcx add one.abc two.abc &
    run --wait 5 backup other
    done_with ''
    wait
    kilobytes=$(($(wc -c < tunes.abcx) / 1000))
    tells_how_far backup "kBcopied:*of$kilobytes" ''
    kilobytes=$(($(wc -c < all.abc) / 1000))
    tells_how_far export "kBwritten:*of$kilobytes" ''
    tells_how_far add 'books:1of2' 'two.abc:tune17\r\n'
    same copy tunes.abcx
    end
}

cases_of_layouts() {
    begin 'an upgrade' one
    cp tunes.abcx before
    contents tunes.abcx > wanted
    run check
    done_with 'layout 1 tunes 2 sets 1'
    run find notes CDEFGABcde --in C
    done_with '1
2'
    run upgrade
    ends_with 0
    says 'it is of layout 2 now'
    complains 'no way back from layout 2 but a copy'
    complains '`tunes-book backup COPY` makes a copy'
    run check
    done_with 'layout 2 tunes 2 sets 1'
    run find notes CDEFGABcde --in C
    done_with 1
    contents tunes.abcx > found
    same found wanted
    cp tunes.abcx upgraded
    run upgrade
    done_with 'it is of layout 2 already, and stays as it is'
    same tunes.abcx upgraded
    # the way back is a copy
    cp before tunes.abcx
    run backup copy
    done_with ''
    run upgrade
    run restore copy
    done_with 'layout 1 tunes 2 sets 1
the archive that was there is tunes.abcx.1.old now'
    same tunes.abcx before
    has 'before copy copy.sha256 found tunes.abcx tunes.abcx.1.old upgraded wanted'
    end

    begin 'an upgrade at a terminal' one
    cp tunes.abcx before
    for answer in n '' never; do
        at_terminal "$answer"
        ends_with 1
        grep -q 'no way back from layout 2 but a copy' "$work/out" || wrong 'it does not say so'
        grep -q 'it stays in layout 1, as it is' "$work/out" || wrong "it goes on by '$answer'"
        same tunes.abcx before
    done
    at_terminal y
    ends_with 0
    grep -q 'it is of layout 2 now' "$work/out" || wrong 'it does not go on'
    run check
    done_with 'layout 2 tunes 2 sets 1'
    end

    begin 'tunes by layout' one
    awk 'BEGIN { printf "X:1\nK:C\n"; for (i = 0; i < 63995; i++) printf "A"; print "" }' > long.abc
    { cat long.abc; echo; cat "$book"; } > both.abc
    sed 's/AAA$/&A/' long.abc > longer.abc
    for line in 'add long.abc' 'add --dry long.abc' 'add --new both.abc'; do
        run $line
        refused 1 'its tune number 1 is too long'
        complains '`tunes-book upgrade`'
    done
    run import-check longer.abc
    ends_with 1
    tells longer.abc
    run import-check long.abc
    done_with 'long.abc: 1 tune'
    EDITOR='cp long.abc'
    run edit 1
    refused 1 'its tune number 1 is too long'
    same tune-1.abc long.abc
    rm tune-1.abc
    run upgrade
    ends_with 0
    for line in 'add longer.abc' 'add --dry longer.abc' 'add --new longer.abc'; do
        run $line
        refused 1 'its tune number 1 is too long'
    done
    run add --dry long.abc
    done_with 'long.abc: 1 tune'
    run add long.abc
    done_with 'long.abc: tune 3'
    run add --new both.abc
    done_with 'both.abc: tunes 4 to 18; 1 of its tunes are there already'
    run edit 1
    done_with 'tune 1 has revision 2 now'
    run show 1
    same "$work/out" long.abc
    run undo
    done_with 'tune 1 has revision 3 now'
    end

    begin 'upgrades that fail' one
    cp tunes.abcx before
    contents tunes.abcx > wanted
    # No byte can be written from 32,768 on, where the log has to stand.
    (
        trap '' XFSZ
        ulimit -f 64
        run upgrade
        echo "$status" > ended
    )
    status=$(cat ended)
    words='upgrade, without room'
    refused 1 'the device failed'
    complains 'all of it is there, in layout 1 or 2; `tunes-book check` tells in which'
    run check
    done_with 'layout 1 tunes 2 sets 1'
    contents tunes.abcx > found
    same found wanted
    head -c 50000 before > tunes.abcx
    cp tunes.abcx cut
    run upgrade
    refused 3 'the archive is damaged; `tunes-book restore COPY`'
    same tunes.abcx cut
    rm tunes.abcx
    run upgrade
    refused 1 'there is no such file'
    end
}

cases_of_devices() {
    if command -v flock > /dev/null; then
        begin 'another program in the way' session
        cp tunes.abcx before
        echo 'X:1' > mine.abc
        flock tunes.abcx sh -c 'echo > locked; while [ ! -e over ]; do sleep 0.05; done' &
        while [ ! -e locked ]; do sleep 0.05; done
        for line in titles 'show 1' 'edit 1' 'delete 1' 'put a 1' 'cut a 1' 'export b.abc' \
            'dump b' 'check' 'upgrade' 'backup b' 'add mine.abc' 'restore before' count random \
            ask 'draft 1 b'; do
            run $line
            refused 1 'another program has it open'
        done
        : > over
        wait
        same tunes.abcx before
        has 'before locked mine.abc over tunes.abcx'
        end
    else
        skip 'another program in the way' flock
    fi

    if [ -e /dev/full ]; then
        begin 'a full device' session
        echo older > out
        cp out wanted
        ln -s /dev/full out.new
        for line in 'export --force out' 'dump --force out' 'backup out.new' 'export out.new'; do
            run $line
            refused 1 ''
            same out wanted
            [ -L out.new ] || wrong "'$line' takes a link away that is not its own"
        done
        for line in titles 'show 1' 'find kesh' '--json titles' '--csv sets' check upgrade help \
            count random 'export -' 'dump -' "import-check $book" 'help find'; do
            $shell "$root/tunes-book" $line > /dev/full 2> "$work/err"
            status=$?
            words=$line
            ends_with 1
        done
        end
    else
        skip 'a full device' /dev/full
    fi

    begin 'files in the way' session
    echo mine > out.new
    run export out
    refused 1 'out.new is there'
    [ "$(cat out.new)" = mine ] || wrong 'out.new is overwritten'
    mkdir folder
    run export folder
    refused 2 'folder is a folder'
    run export no/such/folder
    refused 1 'there is no folder'
    has 'folder out.new tunes.abcx'
    end

    begin 'links' session
    mkdir away
    run export all.abc
    cp all.abc away/book
    run put friday 3
    run export --force away/book friday
    done_with ''
    ln -s away/book out
    run export out
    refused 1 out
    run export --force out
    done_with ''
    [ -L out ] || wrong 'a link is written over'
    same away/book all.abc
    ln -s away/none dangling
    run export dangling
    done_with ''
    same away/none all.abc
    ln -s no/such/folder/book nowhere
    run export nowhere
    refused 1 nowhere
    mv tunes.abcx away/archive
    ln -s away/archive tunes.abcx
    if command -v flock > /dev/null; then
        run backup copy
        done_with ''
        cp away/archive before
        run delete 1
        cp away/archive later
        run restore copy
        ends_with 0
        [ -L tunes.abcx ] || wrong 'the link to the archive is written over'
        same away/archive before
        same away/archive.1.old later
    fi
    end
}

cases_of_programs() {
    begin 'an edit that a program does not put in' session
    for body in 'exit 1' 'exit 125' 'kill -s KILL $$'; do
        fake_desk << END
case \$* in *replace*) $body ;; *) exec "\$real" "\$@" ;; esac
END
        EDITOR='sed -i s/jig/reel/'
        run edit 1
        [ "$status" -ne 0 ] || wrong "an edit ends with 0 after '$body'"
        tells 'your text is in tune-1.abc'
        grep -q reel tune-1.abc || wrong 'the text is lost'
        rm tune-1.abc
    done
    end

    begin 'a program that is none' session
    TUNES_DESK=$PWD/absent
    for line in titles 'put a 1' 'help find' "add $book" 'edit 1' 'hear 1 a.mid'; do
        run $line
        refused 4 'is not found'
    done
    # `tunes` is not asked for
    TUNES_DESK=$desk
    TUNES=$PWD/absent
    for line in 'put a 1' "add $book" upgrade 'backup b' check; do
        run $line
        ends_with 0
    done
    end

    begin 'a stop in the middle leaves nothing' session
    echo ': > asked; while [ -e asked ]; do sleep 0.05; done' | editor
    for signal in TERM HUP; do
        $shell "$root/tunes-book" edit 3 > "$work/out" 2> "$work/err" < /dev/null &
        while [ ! -e asked ]; do sleep 0.05; done
        kill -s "$signal" $!
        rm asked
        wait $! 2> "$work/told"
        [ $? -gt 128 ] || wrong "it goes on after $signal"
        rm tune-3.abc
    done
    has 'editor tunes.abcx'
    end
}

# A program in the place of a tool, on PATH before the others; standard input is its script.
tool_is() {
    mkdir -p bin
    { echo '#!/bin/sh' && cat; } > "bin/$1"
    chmod +x "bin/$1"
}

# Runs ./tunes-book with the programs of bin/ before the others.
run_over_bin() {
    was=$PATH
    PATH=$PWD/bin:$PATH
    run "$@"
    PATH=$was
}

# Tools that draw and play at once. Where the book has the line, abcm2ps complains of it.
drawing_tools() {
    tool_is abcm2ps << 'END'
printf '%%!PS\n%%%%EOF\n' > book.ps
grep -n qqq book.abc |
    sed 's/:/ /; s/\([0-9]*\) \(.*\)/book.abc:\1:6: error: Not a note\n   \1 \2\n      ^/'
! grep -q qqq book.abc
END
    tool_is ps2pdf << 'END'
printf '%%PDF-1.4\n%%%%EOF\n' > "$2"
END
    tool_is abc2midi << 'END'
printf 'MThd\0\0\0\006\0\0\0\001\0`MTrk\0\0\0\004\0\377/\0' > book.mid
grep -n qqq book.abc
! grep -q qqq book.abc
END
}

cases_of_outs() {
    begin 'OUT is the archive, by any name' session
    drawing_tools
    mkdir away
    for name in link.abc link.pdf link.mid; do ln -s tunes.abcx $name; done
    ln tunes.abcx hard.ps
    ln tunes.abcx hard.mid
    ln -s ../link.pdf away/chain.pdf
    cp tunes.abcx before
    folder=${PWD##*/}
    for force in '' --force; do
        for line in 'export tunes.abcx' 'export ./tunes.abcx' "export $PWD/tunes.abcx" \
            "dump ../$folder/tunes.abcx" 'export link.abc' 'dump link.abc' 'print link.pdf' \
            'print hard.ps' 'hear 1 link.mid' 'hear 1 hard.mid' 'print away/chain.pdf' \
            'backup tunes.abcx' 'backup link.abc'; do
            [ "$force${line%% *}" != --forcebackup ] || continue
            run_over_bin $line $force
            refused 1 'is the archive itself'
            same tunes.abcx before
        done
    done
    cd away || exit 1
    TUNES_BOOK=../tunes.abcx
    for line in 'export ../hard.ps' 'print ../link.pdf' "dump $PWD/../tunes.abcx"; do
        PATH=$PWD/../bin:$PATH run $line
        refused 1 'is the archive itself'
    done
    cd ..
    same tunes.abcx before
    has 'away before bin bin/abc2midi bin/abcm2ps bin/ps2pdf hard.mid hard.ps tunes.abcx'
    end

    begin 'other archives, and what is kept beside this one' session
    cp tunes.abcx copy.abcx
    run delete 3
    run restore copy.abcx
    head -c 20000 copy.abcx > cut.abcx
    cp tunes.abcx.old.abc old
    cp tunes.abcx.1.old first
    ln -s tunes.abcx.old.abc link
    ln tunes.abcx.1.old hard
    ln -s tunes.abcx.new dangling
    ln -s tunes.abcx.3.old chain
    for line in 'export copy.abcx' 'dump cut.abcx' 'export hard' 'export tunes.abcx.1.old'; do
        for force in '' --force; do
            run $line $force
            refused 1 ''
        done
    done
    for line in 'export tunes.abcx.old.abc' 'dump link' 'export tunes.abcx.new' 'dump dangling' \
        'export tunes.abcx.7.old' \
        'dump chain' 'backup tunes.abcx.2.old' 'backup tunes.abcx.new'; do
        run $line
        refused 1 'belongs to the archive tunes.abcx'
    done
    run export --force link
    refused 1 'belongs to the archive'
    same tunes.abcx.old.abc old
    same tunes.abcx.1.old first
    same hard first
    has 'copy.abcx cut.abcx first hard old tunes.abcx tunes.abcx.1.old tunes.abcx.old.abc'
    end

    begin 'files that stand' session
    drawing_tools
    run put friday 3 1
    echo text > text
    : > empty
    for line in 'export all.abc' 'print all.pdf' 'print all.ps' 'hear 1 one.mid' \
        'dump all.script'; do
        run_over_bin $line
        done_with ''
        out=${line##* }
        cp $out was
        run_over_bin $line
        refused 1 --force
        same $out was
        cp text $out
        run_over_bin $line --force
        done_with ''
        same $out was
        run_over_bin --force $line
        done_with ''
        cp empty $out
        run_over_bin $line
        refused 1 --force
        [ ! -s $out ] || wrong "'$line' writes over an empty file"
        rm $out was
    done
    mkfifo pipe
    ln -s /dev/null null
    for line in 'export pipe' 'export null' 'dump --force pipe' 'export --force null'; do
        run $line
        refused 1 'no regular file'
    done
    [ -p pipe ] && [ -L null ] && [ -c /dev/null ] || wrong 'a pipe or a device is written over'
    cp empty mine.pdf
    ln -s 'mine.pdf
' ends.pdf
    run_over_bin --force print ends.pdf
    ends_with 0
    [ -L ends.pdf ] && [ ! -s mine.pdf ] || wrong 'a link whose name ends in a line feed'
    end

    begin 'results on standard output' session
    drawing_tools
    run put friday 3 1
    run export all.abc
    run export -
    ends_with 0
    same "$work/out" all.abc
    run dump script
    run dump - --force
    ends_with 0
    same "$work/out" script
    run export friday.abc friday
    run export - friday
    ends_with 0
    same "$work/out" friday.abc
    run export - --tune 3 1
    ends_with 0
    grep '^X:' "$work/out" | tr -d '\n' > "$work/found"
    [ "$(cat "$work/found")" = X:3X:1 ] || wrong "single tunes are '$(cat "$work/found")'"
    run_over_bin print all.pdf
    run_over_bin print -
    ends_with 0
    same "$work/out" all.pdf
    run_over_bin print - friday
    ends_with 0
    run_over_bin hear 3 three.mid
    run_over_bin hear 3 -
    ends_with 0
    same "$work/out" three.mid
    run_over_bin print three.ps --tune 3
    done_with ''
    run_over_bin print some.ps --tune 3 --tune 99
    refused 1 'no tune has the number 99'
    run export ./-
    done_with ''
    same ./- all.abc
    has "- all.abc all.pdf bin bin/abc2midi bin/abcm2ps bin/ps2pdf friday.abc script three.mid \
three.ps tunes.abcx tunes.abcx.old.abc"
    # nothing of it on a terminal
    if command -v script > /dev/null; then
        for line in 'print -' 'hear 1 -'; do
            PATH=$PWD/bin:$PATH script -qec "$shell '$root/tunes-book' $line" /dev/null \
                > "$work/out" < /dev/null
            status=$?
            words="$line, at a terminal"
            ends_with 2
            grep -q 'not for a terminal' "$work/out" || wrong "'$words' does not say why"
        done
    fi
    end

    begin 'endings, and names of set lists in the place of OUT' session
    run put friday 3 1
    for line in 'print x.png friday' 'print friday' 'print all' 'hear 1 k.wav' 'hear 1 friday'; do
        run $line
        refused 2 ''
    done
    run print friday
    complains '`print OUT.pdf NAME` prints a set list'
    has 'tunes.abcx tunes.abcx.old.abc'
    end

    begin 'a file that is not an archive is not replaced by a copy' session
    cp "$book" mine.abc
    run -f mine.abc restore tunes.abcx
    refused 1 '--force'
    same mine.abc "$book"
    run -f mine.abc restore --force tunes.abcx
    done_with 'layout 2 tunes 15 sets 0
the archive that was there is mine.abc.1.old now'
    same mine.abc.1.old "$book"
    end

    begin 'a book of old texts that is none' session
    cp tunes.abcx before
    printf '%% tunes-book delete 1 1 5\n' | cat before - > like
    for other in "$book" before like; do
        cp "$other" other
        ln -sf other tunes.abcx.old.abc
        run delete 1
        refused 1 'what is changed could not be kept in tunes.abcx.old.abc'
        same other "$other"
        same tunes.abcx before
    done
    end
}

# Runs a call eight times at once. The files `status.N` get what each ends with.
eight_at_once() {
    for number in 1 2 3 4 5 6 7 8; do
        { $shell "$root/tunes-book" "$@" > out.$number 2> err.$number; echo $? > status.$number; } &
    done
    wait
    words="$*, eight times"
    [ "$(cat status.* | tr -d '01\n')" = '' ] || wrong "'$words' ends with $(cat status.*)"
}

# How many of eight calls were done.
done_of_eight() { cat status.* | grep -c '^0$'; }

# Runs a change as `strace` has it, and sees that what is kept was on the device before the first
# write to the archive.
kept_first() {
    words="$*, under strace"
    strace -f -y -qq -e trace=write,pwrite64,fsync,fdatasync -o trace "$desk" -f tunes.abcx "$@" \
        > "$work/out" 2> "$work/err" < /dev/null
    status=$?
    ends_with 0
    awk -v folder="$PWD>" '
        /sync\(/ && /\/tunes\.abcx\.old\.abc>/ { kept = 1 }
        /sync\(/ && index($0, folder) { named = 1 }
        /write.*\/tunes\.abcx>/ { written = 1; exit }
        END { exit !(kept && (named || there) && written) }' there="$there" trace ||
        wrong "'$words' writes before what is kept is on the device"
    rm trace
    there=1
}

cases_of_kept() {
    if strace -o "$work/told" true 2> "$work/err"; then
        begin 'what is kept is on the device before the archive changes' session
        there=0
        kept_first delete 3
        kept_first put friday 4 1
        kept_first move friday 1 2
        run show 4
        sed 's/^R:.*/R:one/' "$work/out" > four.abc
        kept_first replace 4 four.abc
        kept_first undo
        end
    else
        skip 'what is kept is on the device before the archive changes' 'strace that may run'
    fi

    if strace -o "$work/told" true 2> "$work/err"; then
        begin 'names that are given are on the device' session
        run dump script
        for line in '-f tunes.abcx backup out' '-f tunes.abcx restore out' \
            '-f other.abcx restore out' '-f made.abcx new' '-f new.abcx load script'; do
            strace -f -qq -o trace "$desk" $line > "$work/out" 2> "$work/err"
            status=$?
            words="$line, under strace"
            ends_with 0
            syncs_and_names
            case $(cat "$work/found") in
            *'fsync link fsync ' | *'fsync rename fsync ') ;;
            *) wrong "'$words' syncs and names in the order '$(cat "$work/found")'" ;;
            esac
            rm trace
        done
        end
    else
        skip 'names that are given are on the device' 'strace that may run'
    fi

    begin 'two at once' session
    eight_at_once backup copy
    for each in copy copy.?; do
        [ ! -e "$each" ] || same "$each" tunes.abcx
    done
    [ "$(find . -name 'copy*' ! -name '*.sha256' | wc -l)" -eq "$(done_of_eight)" ] ||
        wrong "of eight backups $(done_of_eight) are done"
    rm -f copy*
    run export whole
    eight_at_once export out
    [ "$(done_of_eight)" -eq 1 ] || wrong "of eight exports to one file $(done_of_eight) end with 0"
    same out whole
    [ ! -e out.new ] || wrong 'out.new is left'
    run backup one
    run delete 3
    run backup two
    run delete 4
    cp tunes.abcx later
    run restore one
    ends_with 0
    same tunes.abcx.1.old later
    echo mine > tunes.abcx.2.old
    run restore two
    ends_with 0
    [ "$(cat tunes.abcx.2.old)" = mine ] || wrong 'a file that came there is written over'
    same tunes.abcx.3.old one
    eight_at_once restore one
    same tunes.abcx one
    same tunes.abcx.4.old two
    [ "$(find . -name 'tunes.abcx.*.old' | wc -l)" -eq $((3 + $(done_of_eight))) ] ||
        wrong "of eight restores $(done_of_eight) are done"
    run dump script
    eight_at_once -f made load script
    [ "$(done_of_eight)" -eq 1 ] || wrong "of eight loads of one archive $(done_of_eight) are done"
    run -f made dump again
    same again script
    end

    begin 'an undo asks for the tune that was changed' session
    printf 'X:1\nT:one\nK:C\n' > a.abc
    printf 'X:1\nT:two\nK:C\n' > b.abc
    run -f x new
    run -f x add a.abc b.abc
    EDITOR='sed -i s/T:two/T:changed/'
    run -f x edit 2
    run -f x delete 2
    printf 'X:1\nT:three\nK:C\n' > c.abc
    { echo "import $(($(wc -c < c.abc)))"; cat c.abc; } | "$program" run x > told
    run -f x undo
    refused 1 'tune 2 was changed since by another program, so it stays; its old text is in x.'
    run -f x show 2
    says 'X:2
T:three
K:C'
    # and where another program replaced it
    EDITOR='sed -i s/^R:.*/R:one/'
    run edit 3
    { echo 'replace 3 2 19'; printf 'X:1\nT:other\nK:C\nab\n'; } | "$program" run tunes.abcx > told
    cp tunes.abcx before
    run undo
    refused 1 'was changed since by another'
    same tunes.abcx before
    end

    begin 'an entry that is cut within a line' session
    by_script 'delete 3'
    printf '\n%% tunes-book delete 4 1 300\nX:4\nT:Banish Mis' > tunes.abcx.old.abc
    run show 4
    cp "$work/out" wanted
    run delete 4
    done_with ''
    run undo
    done_with 'tune 4 is there again'
    run show 4
    same "$work/out" wanted
    run delete 4
    done_with ''
    # cut behind an entry, whose marks are read all the same
    printf '\n%% tunes-book delete 5 1 300\nX:5\nT:Bla' >> tunes.abcx.old.abc
    run undo
    done_with 'tune 4 is there again'
    run undo
    refused 1 'nothing is left'
    end

    begin 'an undo that broke off, and two at once' session
    run show 7
    cp "$work/out" wanted
    run delete 7
    cp tunes.abcx deleted
    cp tunes.abcx.old.abc entry
    # killed before the tune came back, and after
    printf '\n%% tunes-book undoing 15\n' >> tunes.abcx.old.abc
    run undo
    done_with 'tune 7 is there again'
    run undo
    refused 1 'nothing is left'
    for number in 16 7; do
        cp deleted tunes.abcx
        cp entry tunes.abcx.old.abc
        printf '\n%% tunes-book undoing 15\n' >> tunes.abcx.old.abc
        { echo "import $(($(wc -c < wanted)))"; cat wanted; } | "$program" run tunes.abcx > told
        [ "$number" = 16 ] || by_script 'renumber 16 7'
        run undo
        ends_with 0
        run show 7
        same "$work/out" wanted
        run check
        done_with 'layout 2 tunes 15 sets 0'
        run undo
        refused 1 'nothing is left'
    done
    run delete 7
    eight_at_once undo
    [ "$(done_of_eight)" -eq 1 ] || wrong "of eight undos of one change $(done_of_eight) are done"
    run check
    done_with 'layout 2 tunes 15 sets 0'
    end

    begin 'a delete that is refused leaves no old text' session
    if command -v flock > /dev/null; then
        run delete 3
        flock tunes.abcx sh -c ': > locked; while [ ! -e over ]; do sleep 0.05; done' &
        while [ ! -e locked ]; do sleep 0.05; done
        run delete 4
        refused 1 'another program has it open'
        EDITOR='sed -i s/^R:.*/R:one/'
        : > over
        wait
    fi
    run undo
    done_with 'tune 3 is there again'
    end

    begin 'what is kept beside an archive is no book' session
    run delete 3
    run delete 4
    cp "$book" mine.abc
    run -f other.abcx new
    run -f other.abcx add mine.abc
    run -f other.abcx delete 1
    run add --new .
    done_with './mine.abc: tunes 16 to 17; 13 of its tunes are there already'
    run add tunes.abcx.old.abc
    refused 1 'is no book'
    end
}

# Runs the words of the second and later arguments in a group of processes of their own, which gets
# the signal SIG$1 after some time of chance, and sometimes twice.
interrupted() {
    python3 -c 'import os, random, signal, subprocess, sys, time
name, seed, *words = sys.argv[1:]
random.seed(int(seed))
child = subprocess.Popen(words, start_new_session=True, stdin=subprocess.DEVNULL,
    stdout=subprocess.DEVNULL, stderr=subprocess.DEVNULL)
for each in range(random.randint(1, 2)):
    time.sleep(random.random() * 0.15)
    try:
        os.killpg(child.pid, getattr(signal, "SIG" + name))
    except ProcessLookupError:
        pass
try:
    child.wait(60)
except subprocess.TimeoutExpired:
    os.killpg(child.pid, signal.SIGKILL)
    sys.exit(1)' "$@" || wrong "it had not ended after a minute: $*"
}

cases_of_stops() {
    begin 'interrupts leave no half of a change, and nothing in TMPDIR' session
    awk 'BEGIN {
        print "set-new mv"
        for (i = 0; i < 180; i++) print "set-add mv " i % 15 + 1
    }' | "$program" run tunes.abcx > "$work/told"
    cp tunes.abcx before
    run set mv
    cp "$work/out" first
    run move mv 1 180
    run set mv
    cp "$work/out" moved
    for seed in 1 2 3 4 5 6 7 8 9 10; do
        for signal in INT TERM; do
            cp before tunes.abcx
            interrupted $signal $seed $shell "$root/tunes-book" move mv 1 180
            run set mv
            cmp -s "$work/out" first || same "$work/out" moved
            rm -f out
            interrupted $signal $seed $shell "$root/tunes-book" export out
            [ ! -e out ] || same out "$work/session-book"
            # A program that is ended there leaves it.
            rm -f out.new
            left=$(ls -A "$TMPDIR")
            [ -z "$left" ] || wrong "after $signal working files are left: $left"
        done
    done
    end

    begin 'put and move look first' session
    awk 'BEGIN {
        print "set-new big"
        for (i = 0; i < 190; i++) print "set-add big " i % 15 + 1
    }' | "$program" run tunes.abcx > "$work/told"
    cp tunes.abcx before
    run put big 1 2 3 4 5 6 7 8 9 10 11
    refused 1 'big: the set list has 200 places, and no more'
    run put new 1 99
    refused 1 'no tune has the number 99'
    run move big 1 191
    refused 1 'no such place'
    same tunes.abcx before
    run put big 1 2 3 4 5 6 7 8 9 10
    done_with ''
    end

    begin 'readers of pipes that go away'
    run new
    # the titles are longer than a pipe
    awk 'BEGIN {
        for (i = 1; i <= 400; i++) printf "X:%d\nT:%0200d, a title\nK:C\n\n", i, i
    }' > many.abc
    printf 'X:1\nK:C\n' > one.abc
    run add many.abc
    done_with 'many.abc: tunes 1 to 400'
    for line in titles '--json titles' '--csv titles' 'find 0' 'find --within title' 'help' \
        'add one.abc one.abc many.abc' 'show 1' 'delete 400' 'undo' 'check'; do
        # shellcheck disable=SC2216 # it goes away without a look
        { $shell "$root/tunes-book" $line 2> "$work/err"; echo $? > status; } | sleep 0.01
        status=$(cat status)
        words="$line | sleep 0.01"
        ends_with 0
        [ ! -s "$work/err" ] || wrong "'$words' says '$(head -n 1 "$work/err")'"
    done
    { (trap '' PIPE; $shell "$root/tunes-book" titles 2> "$work/err"); echo $? > status; } | :
    status=$(cat status)
    words='titles | :, without the signal'
    ends_with 0
    [ ! -s "$work/err" ] || wrong "'$words' says '$(head -n 1 "$work/err")'"
    run check
    done_with 'layout 2 tunes 802 sets 0'
    end
}

cases_of_options() {
    begin 'options stand anywhere' session
    echo 'find title kesh' | "$program" run tunes.abcx | sed 1d > wanted
    for line in 'find --within kesh' 'find kesh --within' '--within find kesh' \
        'find --within -- kesh' 'find -- kesh' 'find kesh -f tunes.abcx'; do
        run $line
        ends_with 0
        same "$work/out" wanted
    done
    for line in 'find kesh --json' 'find --within --json kesh' 'find --json --within -- kesh' \
        'find title kesh --json' 'find --json title kesh' '--json find kesh'; do
        run $line
        lists_json '[{"number": 1, "title": "Kesh Jig, The"}]'
    done
    run find key --json Edor
    ends_with 0
    grep -q 'Drowsy Maggie' "$work/out" || wrong 'a key is not found behind an option'
    run find kesh -- --json
    finds_none
    run titles --csv -f tunes.abcx
    ends_with 0
    for line in 'find kesh --jsn' 'find kesh --force' 'show 1 --json' 'find kesh -f' \
        'find --title' 'export - --tune -1'; do
        run $line
        refused 2 ''
    done
    # A value is what stands behind its option, also where it looks like one.
    cp tunes.abcx ./-dash.abcx
    cp tunes.abcx ./=.abcx
    cp tunes.abcx ./--
    for line in '-f -dash.abcx find kesh' 'find kesh -f -dash.abcx' '-f=-dash.abcx find kesh' \
        '-f =.abcx find kesh' '-f -- find --title kesh'; do
        run $line
        ends_with 0
        same "$work/out" wanted
    done
    for line in 'find --title -x' 'find kesh --title --json' '--rhythm -jig find kesh'; do
        run $line
        finds_none
    done
    for line in '--wait -3 titles' 'titles --wait -3'; do
        run $line
        refused 2 "'-3' is no number"
    done
    rm ./-dash.abcx ./=.abcx ./--
    for line in 'find --help' 'help find' '--help find' 'export --help' 'put --help' 'help put' \
        'undo --help' 'edit --help' 'help print' 'add --help' 'help backup'; do
        run $line
        ends_with 0
        grep -q 'Usage: tunes-book [a-z]' "$work/out" || wrong "'$line' is no page of help"
    done
    for line in -h --help help; do
        run $line
        done_with "$("$root/tunes-book" --help)"
    done
    for line in '-ftunes.abcx put a 1' '-f=tunes.abcx put a 1' '--wait=1 put a 1' \
        'put a --wait 01 1' '-ftunes.abcx check' '--wait=0 check' 'check --wait 1'; do
        run $line
        ends_with 0
    done
    end

    begin 'words of refusals' session
    run find key d
    refused 1 'a key is written as D, Bm or Edor'
    run export no/such/out
    refused 1 'there is no folder'
    case $(cat "$work/err") in *'disk full'*) wrong 'it speaks of a disk' ;; esac
    tool_is abcm2ps << 'END'
exit 1
END
    run_over_bin print friday.ps
    refused 1 'friday.ps is not made'
    odd=$(printf 'a\351.abcx')
    cp tunes.abcx "$odd"
    for line in titles 'export b.abc' 'put a 1' "add $book"; do
        run -f "$odd" $line
        refused 2 'a word of the command is not UTF-8'
    done
    run export "$odd"
    refused 2 'name the file otherwise, or hand its bytes over on standard input by -'
    cp "$book" "$odd"
    run import-check "$odd"
    refused 2 'a word of the command is not UTF-8'
    $shell "$root/tunes-book" import-check - < "$odd" > "$work/out" 2> "$work/err"
    status=$?
    words='import-check -, of a file whose name is not UTF-8'
    done_with '-: 15 tunes'
    run add "$odd"
    refused 2 'a word of the command is not UTF-8'
    $shell "$root/tunes-book" add - < "$odd" > "$work/out" 2> "$work/err"
    status=$?
    words='add -, of a file whose name is not UTF-8'
    done_with '-: tunes 16 to 30'
    end

    begin 'what a tool says is told of the tune' session
    drawing_tools
    printf 'X:1\nT:faulty\nK:G\nGABc qqq\n' > a.abc
    run add a.abc
    run put friday 3 16
    run_over_bin print all.ps
    refused 1 'all.ps is written, but abcm2ps ended with status 1'
    grep -q '^tune 16, line 4:6: error: Not a note$' "$work/err" ||
        wrong 'it does not name the tune'
    grep -q '^   4 GABc qqq$' "$work/err" || wrong 'it shows another line'
    run_over_bin print friday.pdf friday
    refused 1 'friday.pdf is written'
    grep -q '^tune 16, at place 2, line 4:6: error' "$work/err" ||
        wrong 'it does not name the place'
    run_over_bin hear 16 a.mid
    refused 1 'a.mid is written, but abc2midi ended with status 1'
    grep -q '^tune 16: ' "$work/err" || wrong 'it does not name the tune that is heard'
    run_over_bin --force hear 3 a.mid
    done_with ''
    tool_is abc2midi << 'END'
printf 'MThd\0\0\0\006\0\0\0\001\0`MTrk\0\0\0\004\0\377' > book.mid
END
    cp a.mid wanted
    run_over_bin hear 3 a.mid
    refused 1 'abc2midi made no sound file of tune 3'
    same a.mid wanted
    end

    begin 'odd folders for working files' session
    run dump wanted
    for folder in 'back\slash' -dash 'a=b' 'two
lines' 'star *'; do
        mkdir -- "$folder" && before=$TMPDIR && TMPDIR=$folder
        run dump script
        done_with ''
        same script wanted
        rm -f script
        run find --within kesh
        done_with '1 Kesh Jig, The'
        run delete 1
        done_with ''
        run undo
        done_with 'tune 1 is there again'
        TMPDIR=$before
        [ -z "$(ls -A -- "$folder")" ] || wrong "working files are left in $folder"
    done
    end
}

# The calls of `trace` that sync or name files, in their order.
syncs_and_names() {
    sed -n 's/.*\b\(fsync\|fdatasync\|link\|linkat\|rename\|renameat\|renameat2\)(.*/\1/p' trace |
        sed 's/^fdatasync/fsync/; s/at2*$//' | tr '\n' ' ' > "$work/found"
}

# Runs the program that asks as `strace` has it, and says what it did that no question may do: FILE
# is opened to read alone, nothing is written but to standard output and error, and no file is made,
# named or taken away.
watched() {
    words="$*, under strace"
    strace -f -qq -o trace "$desk" "$@" > "$work/out" 2> "$work/err" < /dev/null
    status=$?
    ends_with 0
    grep -E '(write|writev|pwrite|pwrite64|sendfile|splice|copy_file_range)\(' trace |
        grep -vE '\bwritev?\([12],' > "$work/told"
    grep -E '\b(rename|link|symlink|unlink|mkdir|mknod|chmod|fchmod)(at2?)?\(' trace >> "$work/told"
    grep -E '\b(creat|truncate|ftruncate|fallocate)\(' trace >> "$work/told"
    grep -E '\bopen(at2?)?\(' trace | grep -E 'O_(WRONLY|RDWR|CREAT|TRUNC|APPEND)' |
        grep -vE '"/(proc|dev|sys)/' >> "$work/told"
    [ ! -s "$work/told" ] || wrong "'$words' does more than ask: $(head -n 1 "$work/told")"
    grep -q 'flock(.*LOCK_SH' trace || wrong "'$words' takes no lock that readers share"
}

# A book of sixteen tunes. The second has the text of the first, and the third begins as it does,
# higher. Of the next four one has another twelfth note, one another title, and two have none. Three
# have no note, three are short, and the last three are like some before them.
twice() {
    first='GABc dedB cdef|gag\n\n'
    third='X:1\nT:THE K\0303\0211SH JIG\nR:jig\nK:D\ndefg abaf gabc'\''|d\n\n'
    printf '%b' "X:1\nT:The Kesh Jig\nK:G\n$first" "X:7\nT:The Kesh Jig\nK:G\n$first" "$third" \
        'X:1\nT:The Kesh Jig\nK:G\nGABc dedB cdeg|gag\n\n' "X:1\nT:Another\nK:G\n$first" \
        "X:1\nK:G\n$first" 'X:1\nK:G\nGABc dedB cdef|ggg\n\n' 'X:1\nT:Silent\nK:C\n\n' \
        'X:1\nT:Silent\nR:jig\nK:C\n\n' 'X:1\nT:Silent\nK:C\n\n' 'X:1\nT:Short\nK:C\nCDE\n\n' \
        'X:1\nT:short\nK:D\nDEF\n\n' 'X:1\nT:Short\nK:C\nCDEF\n\n' "$third" \
        'X:1\nT:kesh jig, the\nK:G\nGABc dedB cdef|aaa\n\n' "X:1\nK:G\n$first"
}

# Those of them that are there twice, where so many tunes stand before them.
twins_from() {
    while read -r number twin rest; do
        printf '%b\n' "$(($1 + number)) $(($1 + twin)) $rest"
    done << 'END'
2 1 text Kesh Jig, The
3 1 opening K\0303\0211SH JIG, THE
10 8 text Silent
12 11 opening short
14 3 text K\0303\0211SH JIG, THE
15 1 opening kesh jig, the
16 6 text
END
}

cases_of_questions() {
    begin 'titles with accents, and notes as printed' session
    printf 'X:1\nT:\303\211amonn an Chnoic\nT:An B\303\263thar M\303\263r\nK:C\n' > a.abc
    run add a.abc
    done_with 'a.abc: tune 16'
    for line in 'find eamonn' 'find EAMONN AN' 'find --title eamonn' 'find bothar mor' \
        'find an bothar' 'find --within MOR bothar' 'find --within chnoic'; do
        run $line
        ends_with 0
        grep -q '^16 ' "$work/out" || wrong "'$line' finds '$(head -n 1 "$work/out")'"
        [ "$(($(wc -l < "$work/out")))" -eq 1 ] || wrong "'$line' finds more than one"
    done
    run find "$(printf '\303\211AMONN')"
    ends_with 0
    grep -q '^16 ' "$work/out" || wrong 'capitals with accents are not found'
    for line in 'find notes FAAGBB' 'find notes FAAGBB --in D' 'find --notes FAAGBB' \
        'find tripping --notes FAAGBB' 'find --notes FAAGBB --rhythm jig --key D'; do
        run $line
        done_with '3 Tripping Up the Stairs'
    done
    for line in 'find notes FAAGBB --in C' 'find kesh --notes FAAGBB' 'find --rhythm zzz' \
        'random --key D --rhythm zzz'; do
        run $line
        finds_none
    done
    for line in 'find notes FAAGBB --in C --json' 'find --rhythm zzz --json'; do
        run $line
        lists_json '[]'
    done
    run find --rhythm zzz --csv
    lists_csv 'number,title'
    end

    begin 'how many, one of them, and some' session
    run count
    done_with 15
    run count --key Edor
    done_with 2
    run count zzz
    done_with 0
    run random --key Edor
    ends_with 0
    case $(cat "$work/out") in
    '6 Drowsy Maggie' | '9 Fig for a Kiss, A') ;;
    *) wrong "one of two is '$(cat "$work/out")'" ;;
    esac
    run random --json
    ends_with 0
    [ "$(grep -o '"number"' "$work/out" | wc -l)" -eq 1 ] || wrong 'random lists more than one'
    run show 3
    cp "$work/out" three
    run show 1
    cp "$work/out" one
    run show 3 1
    ends_with 0
    { cat three && echo && cat one; } > wanted
    same "$work/out" wanted
    run show 3 99
    refused 1 'no tune has the number 99'
    [ ! -s "$work/out" ] || wrong 'a part of what is shown is printed'
    end

    begin 'tunes that are there twice'
    run new
    run twins
    done_with ''
    run twins --json
    lists_json '[]'
    run twins --csv
    lists_csv 'number,twin,alike,title'
    twice > a.abc
    run add a.abc
    run twins
    done_with "$(twins_from 0)"
    run --json twins
    lists_json '[{"number":2,"twin":1,"alike":"text","title":"Kesh Jig, The"},
        {"number":3,"twin":1,"alike":"opening","title":"K\u00c9SH JIG, THE"},
        {"number":10,"twin":8,"alike":"text","title":"Silent"},
        {"number":12,"twin":11,"alike":"opening","title":"short"},
        {"number":14,"twin":3,"alike":"text","title":"K\u00c9SH JIG, THE"},
        {"number":15,"twin":1,"alike":"opening","title":"kesh jig, the"},
        {"number":16,"twin":6,"alike":"text","title":null}]'
    run twins --csv
    lists_csv "$(printf '%b' 'number,twin,alike,title\n2,1,text,"Kesh Jig, The"\n' \
        '3,1,opening,"K\0303\0211SH JIG, THE"\n10,8,text,Silent\n12,11,opening,short\n' \
        '14,3,text,"K\0303\0211SH JIG, THE"\n15,1,opening,"kesh jig, the"\n16,6,text,')"
    # without the first of them the next one is told first
    run delete 1
    run delete 6
    run delete 8
    run twins
    done_with "$(printf '%b' '3 2 opening K\0303\0211SH JIG, THE\n12 11 opening short\n' \
        '14 3 text K\0303\0211SH JIG, THE\n15 2 opening kesh jig, the')"
    run twins 1
    refused 2 ''
    end

    begin 'tunes that are there twice, in layout 1' one
    run twins
    done_with ''
    twice > a.abc
    run add a.abc
    done_with 'a.abc: tunes 3 to 18'
    run twins
    done_with "$(twins_from 2)"
    run upgrade
    run twins
    done_with "$(twins_from 2)"
    end

    begin 'a book that is there twice' session
    run twins
    done_with ''
    run add "$book"
    run twins
    ends_with 0
    cut -d ' ' -f 1-3 "$work/out" > found
    for number in 1 2 3 4 5 6 7 8 9 10 11 12 13 14 15; do
        echo "$((number + 15)) $number text"
    done > wanted
    same found wanted
    end

    begin 'scripts of questions' session
    cp tunes.abcx before
    printf 'show 3\nfind title kesh\nsets\n' > script
    "$program" run tunes.abcx < script > wanted
    $shell "$root/tunes-book" ask < script > "$work/out" 2> "$work/err"
    status=$?
    words=ask
    ends_with 0
    same "$work/out" wanted
    printf 'delete 1\n' | $shell "$root/tunes-book" ask > "$work/out" 2> "$work/err"
    status=$?
    words='ask, of a change'
    [ "$status" -ne 0 ] && grep -q '^refused' "$work/out" || wrong 'a change is not refused'
    same tunes.abcx before
    end

    if command -v flock > /dev/null; then
        begin 'readers at once, beside others and a writer' session
        run titles
        cp "$work/out" wanted
        for reader in 1 2 3 4 5 6 7 8; do
            for number in 1 2 3 4 5; do
                $shell "$root/tunes-book" titles --wait 60 > out.$reader.$number \
                    2> err.$reader.$number || echo failed > failed.$reader.$number
            done &
        done
        for number in 1 2 3; do
            run --wait 60 put a $number
            done_with ''
        done
        wait
        for each in out.*; do same $each wanted; done
        cat err.* > "$work/told"
        [ ! -s "$work/told" ] && ! ls failed.* > "$work/told" 2>&1 ||
            wrong "a reader is refused: $(head -n 1 "$work/told")"
        run set a
        [ "$(($(wc -l < "$work/out")))" -eq 3 ] || wrong 'the writer was not served'
        rm -f out.* err.*
        flock -s tunes.abcx sh -c ': > locked; while [ ! -e over ]; do sleep 0.05; done' &
        while [ ! -e locked ]; do sleep 0.05; done
        for line in titles 'show 1' 'find kesh' 'export b.abc' 'dump b' check count ask 'backup c'
        do
            run $line
            ends_with 0
        done
        for line in 'put a 1' 'add b.abc' 'put a 1 --wait 1' upgrade; do
            run $line
            refused 1 'another program has it open'
        done
        : > over
        wait
        # one that waits is served
        rm -f locked over
        for line in 'titles --wait 60' 'put a 1 --wait 60' 'add --wait 60 b.abc' \
            'delete 4 --wait 60' '--wait 60 backup c' 'check --wait=60' 'export - --wait 60'; do
            flock tunes.abcx sh -c ': > locked; sleep 0.5' &
            while [ ! -e locked ]; do sleep 0.05; done
            run $line
            ends_with 0
            wait
            rm locked
        done
        end
    else
        skip 'readers at once' flock
    fi

    begin 'an archive that a stop left within a change' session
    cp tunes.abcx before
    run put friday 3 1
    cp tunes.abcx after
    python3 -B -c 'import sys
sys.path.append(sys.argv[1])
from archives import opened
before, after = (open(name, "rb").read() for name in ("before", "after"))
open("stopped", "wb").write(opened(before, after))' "$root/checks" || wrong 'no file is made'
    run sets
    cp "$work/out" sets
    run titles
    cp "$work/out" titles
    for line in sets titles; do
        cp stopped tunes.abcx
        run $line
        done_with "$(cat $line)"
        ! cmp -s stopped tunes.abcx || wrong 'it is not brought to rest'
        contents tunes.abcx > found
        contents after > wanted
        same found wanted
    done
    cp stopped tunes.abcx
    run export b.abc friday
    done_with ''
    # who may only read it cannot
    cp stopped tunes.abcx
    chmod 444 tunes.abcx
    if [ "$(id -u)" -ne 0 ]; then
        run titles
        refused 1 'let one who may write'
        same tunes.abcx stopped
    elif as_nobody "$desk" --version && as_nobody head -c 1 "$root/tunes-book"; then
        as_nobody $shell "$root/tunes-book" -f "$PWD/tunes.abcx" titles
        status=$?
        words='titles, of one who may only read'
        refused 1 'let one who may write'
        same tunes.abcx stopped
        cp after tunes.abcx
        chmod 444 tunes.abcx
        as_nobody $shell "$root/tunes-book" -f "$PWD/tunes.abcx" titles
        status=$?
        done_with "$(cat titles)"
    fi
    end

    begin 'questions do nothing else' session
    if strace -o trace true 2> "$work/told"; then
        run put friday 3 1
        cp tunes.abcx before
        for line in 'find kesh' 'find --within the' 'find notes GAB' 'count --key D' random titles \
            sets 'set friday' 'show 1 2' check 'export -' 'export - friday' \
            'export - --tune 1' ask; do
            watched -f tunes.abcx $line
        done
        same tunes.abcx before
        rm trace
        # What is written is on the device before it has its name, and then the name.
        for line in 'export out' 'export --force out'; do
            strace -f -qq -o trace "$desk" -f tunes.abcx $line > "$work/out" 2> "$work/err"
            status=$?
            words="$line, under strace"
            ends_with 0
            syncs_and_names
            case $(cat "$work/found") in
            *'fsync link fsync ' | *'fsync rename fsync ') ;;
            *) wrong "'$words' syncs and names in the order '$(cat "$work/found")'" ;;
            esac
        done
        rm trace
    else
        skip 'questions do nothing else' 'strace that may run'
    fi
    end

    begin 'standard output that is closed' session
    for line in titles 'show 1' check 'export -' count help 'help find'; do
        $shell "$root/tunes-book" $line >&- 2> "$work/err"
        status=$?
        words="$line >&-"
        ends_with 1
        [ -s "$work/err" ] || wrong "'$words' says nothing"
    done
    run titles
    ends_with 0
    end
}

# Runs ./tunes-book where PATH has no shell of another name.
run_by_path() {
    case $shell in
    bash*) "$bash" --posix "$root/tunes-book" "$@" > "$work/out" 2> "$work/err" ;;
    busy*) "$busybox" sh "$root/tunes-book" "$@" > "$work/out" 2> "$work/err" ;;
    *) sh "$root/tunes-book" "$@" > "$work/out" 2> "$work/err" ;;
    esac
    status=$?
}

cases_of_tools() {
    begin 'tools that are missing' session
    tools_without
    for words_of in 'print a.pdf:abcm2ps' 'print a.ps:abcm2ps' 'hear 1 a.mid:abc2midi'; do
        was=$PATH
        PATH=$PWD/bin
        run_by_path ${words_of%:*}
        PATH=$was
        words=$words_of
        refused 4 "the program ${words_of#*:} is not found"
    done
    rm -r bin
    # those of busybox are in its shell
    case $shell in
    busy*) ;;
    *)
        for words_of in 'edit 1:cmp' 'print a.ps:awk' 'hear 1 a.mid:mktemp'; do
            missing=${words_of#*:}
            tools_without "$missing"
            : > bin/abcm2ps
            : > bin/abc2midi
            chmod +x bin/abcm2ps bin/abc2midi
            was=$PATH
            PATH=$PWD/bin
            run_by_path ${words_of%:*}
            PATH=$was
            words=$words_of
            refused 4 "the program $missing is not found"
            rm -r bin
        done ;;
    esac
    has tunes.abcx
    end

    begin 'tools that fail' session
    mkdir bin
    was=$PATH
    PATH=$PWD/bin:$PATH
    for name in out.ps out.mid wanted; do echo older > $name; done
    for body in 'exit 1' 'exit 0' 'echo half > book.ps' ': > book.ps; exit 2' \
        'echo half > book.mid' ': > book.mid'; do
        for tool in abcm2ps abc2midi; do
            printf '#!/bin/sh\n%s\n' "$body" > bin/$tool
            chmod +x bin/$tool
        done
        run print out.ps --force
        refused 1 'abcm2ps made no sheets'
        run hear 1 out.mid --force
        refused 1 'abc2midi made no sound file'
        same out.ps wanted
        same out.mid wanted
    done
    printf '#!/bin/sh\nprintf "%%%%!PS\\n%%%%%%%%EOF\\n" > book.ps\n' > bin/abcm2ps
    printf '#!/bin/sh\nexit 1\n' > bin/ps2pdf
    chmod +x bin/ps2pdf
    run print out.ps --force
    ends_with 0
    cp wanted out.pdf
    run print out.pdf --force
    refused 1 'ps2pdf failed; out.pdf is as before'
    same out.pdf wanted
    PATH=$was
    end

    if command -v abcm2ps > /dev/null && command -v ps2pdf > /dev/null; then
        begin 'sheets of music' session
        run put friday 3 1
        run print friday.pdf friday
        ends_with 0
        [ "$(head -c 4 friday.pdf)" = %PDF ] || wrong 'friday.pdf is no PDF'
        run print all.ps
        ends_with 0
        [ "$(head -c 4 all.ps)" = %!PS ] || wrong 'all.ps is no PostScript'
        has 'all.ps friday.pdf tunes.abcx tunes.abcx.old.abc'
        end
    else
        skip 'sheets of music' 'abcm2ps or ps2pdf'
    fi
    if command -v abc2midi > /dev/null; then
        begin 'a sound file' session
        run hear 3 three.mid
        ends_with 0
        [ "$(head -c 4 three.mid)" = MThd ] || wrong 'three.mid is no sound file'
        run hear 99 none.mid
        refused 1 'no tune has the number 99'
        has 'three.mid tunes.abcx'
        end
    else
        skip 'a sound file' abc2midi
    fi
}

# PAGES, COMPLETION AND WHAT IS INSTALLED

# The commands of --help: the first words of its lines of two blanks, those behind `titles,` and
# `;`, and the others.
commands() {
    sh "$root/tunes-book" --help | sed -n 'h
        s/^  \([a-z][a-z-]*\)\(, \([a-z]*\)\)\{0,1\} .*/\1 \3/p
        g
        s/.*; \([a-z]*\) [A-Z][A-Z]* .*/\1/p' | tr ' ' '\n' | sed '/^$/d; /^tunes-book$/d' |
        LC_ALL=C sort -u
}

# Lines that are typed into a real shell at a terminal, and behind the bar what they are once all
# that may come in the place of the last word stands there, but for a slash at the end.
completion() {
    begin "completion of $typed_in" session
    by_script 'set-new friday' 'set-new francis' 'set-new x'
    mkdir bin 'a b'
    : > 'a b/c.abc'
    : > all.abc
    ln -s "$root/tunes-book" bin/tunes-book
    cp tunes.abcx "my archive's"
    cat > lines << 'END'
tunes ma|tunes make
tunes |tunes --help --version check list make run upgrade
tunes make a|tunes make a\ b all.abc
tunes check bi|tunes check bin
tunes up|tunes upgrade
tunes upgrade bi|tunes upgrade bin
tunes run "a b/|tunes run "a b/c.abc"
tunes list |tunes list
tunes-book ex|tunes-book export
tunes-book --|tunes-book --csv --force --help --json --version --wait
tunes-book -f a|tunes-book -f a\ b all.abc
tunes-book -f tunes.abcx fi|tunes-book -f tunes.abcx find
tunes-book u|tunes-book undo upgrade
tunes-book undo |tunes-book undo --csv --json --list --to
tunes-book replace 3 a|tunes-book replace 3 a\ b all.abc
tunes-book replace 3 --|tunes-book replace 3 --revision
tunes-book restore --|tunes-book restore --force
tunes-book check bi|tunes-book check bin
tunes-book re|tunes-book replace restore
tunes-book upgrade |tunes-book upgrade
tunes-book find r|tunes-book find rhythm
tunes-book --wait 5 find --w|tunes-book --wait 5 find --within
tunes-book ra|tunes-book random
tunes-book count --|tunes-book count --in --key --notes --rhythm --title --within
tunes-book export --|tunes-book export --force --tune
tunes-book find kesh |tunes-book find kesh
tunes-book titles |tunes-book titles --csv --json
tunes-book set f|tunes-book set francis friday
tunes-book -f tunes.abcx put fr|tunes-book -f tunes.abcx put francis friday
tunes-book -f my\ archive\'s cut |tunes-book -f my\ archive\'s cut francis friday x
tunes-book -f "my archive's" move |tunes-book -f "my archive's" move francis friday x
bin/tunes-book -f ./tunes.abcx drop x|bin/tunes-book -f ./tunes.abcx drop x
tunes-book -f absent.abcx set f|tunes-book -f absent.abcx set f
tunes-book put friday |tunes-book put friday
tunes-book print bi|tunes-book print bin
tunes-book print a.pdf fri|tunes-book print a.pdf friday
tunes-book export a.abc |tunes-book export a.abc francis friday x
tunes-book add --|tunes-book add --carry --dry --good --new --show-lost --split
tunes-book backup --|tunes-book backup --keep
tunes-book add a|tunes-book add a\ b all.abc
tunes-book add b.abc a\ b/|tunes-book add b.abc a\ b/c.abc
tunes-book show a|tunes-book show a
tunes-book hear |tunes-book hear
tunes-book hear 3 bi|tunes-book hear 3 bin
tunes-book new |tunes-book new
tunes make a|tunes make a\ b all.abc
END
    cut -d '|' -f 1 lines > typed
    cut -d '|' -f 2 lines > wanted
    PATH=$PWD/bin:$PATH python3 "$root/checks/complete.py" "$typed_in" "$root/completions" \
        < typed > "$work/out" 2> "$work/err" || wrong "$(head -n 1 "$work/err")"
    sed 's|[ /]*$||' "$work/out" > found
    diff wanted found > "$work/told" || wrong "$(sed -n '/^[<>]/p' "$work/told" | head -n 4)"
    end
}

# Looks at the links of the pages that are installed in $there.
links_of_pages() {
    words="pages.py --links $there"
    python3 "$root/checks/pages.py" --links "$there" > "$work/out" 2> "$work/err"
    status=$?
}

# Writes a release of the copy in top to the folder $1, and its note BUILT, which says $2 of each of
# the programs, to the file found. Where dpkg-deb is here, its package says the same.
release() {
    words='release'
    top/release "$1" > "$work/out" 2> "$work/err"
    status=$?
    ends_with 0
    name=$(basename "$1"/*.gz .tar.gz)
    gzip -dc "$1/$name.tar.gz" | tar -xOf - "$name/BUILT" > found
    for each in tunes tunes-desk; do
        grep -q "^$each was $2\$" found ||
            wrong "BUILT says '$(grep "^$each was" found)' in place of '$2'"
    done
    if ! command -v dpkg-deb > /dev/null; then
        package_is_left_out "$1"
        return
    fi
    [ ! -s "$work/err" ] || wrong "a release complains: $(head -n 1 "$work/err")"
    package=$(basename "$1"/*.deb)
    dpkg-deb --fsys-tarfile "$1/$package" | tar -xOf - ./usr/share/doc/tunes/BUILT > "$work/told"
    sed '/^to install: /d' found | cmp -s - "$work/told" || wrong "$package has another BUILT"
    dpkg-deb --field "$1/$package" Description | tr -s ' \n' '  ' > "$work/told"
    sed -n '/^tunes was /,/^the sha256 of /{ /^the sha256 /d; p; }' found | tr -s ' \n' '  ' > said
    grep -qF "$(cat said)" "$work/told" || wrong "$package does not say '$(cat said)'"
}

package_is_left_out() {
    [ "$(cat "$work/err")" = \
        'release: the Debian package is left out: there is no dpkg-deb here' ] ||
        wrong "a release without dpkg-deb says '$(cat "$work/err")'"
    ! ls "$1"/*.deb > "$work/told" 2>&1 || wrong "'$words' writes $(head -n 1 "$work/told")"
}

# The records that ./build leaves beside the programs $built and $built_desk, of these sums.
record() {
    record_of "$built" "$1"
    record_of "$built_desk" "$2"
}

record_of() {
    printf '%s\n' "sha256: $2" 'kit: kit-1 logic 2' 'commit: 0123abcd, with changes' 'crates: 24' \
        > "$1.proved"
    touch -r "$1" "$1.proved"
}

sum_of() { sha256sum < "$1" | sed 's/ .*//'; }

cases_of_pages() {
    begin 'pages and words'
    version=$(sed -n 's/^pub const VERSION: &str = "\(.*\)";$/\1/p' \
        "$root/crates/tune_cli/src/command_line.rt")
    [ -n "$version" ] || wrong 'the version is not found in the sources'
    [ "$("$program" --version)" = "tunes $version" ] || wrong 'the program has another version'
    [ "$("$desk" --version)" = "tunes-book $version" ] ||
        wrong 'the program that asks has another version'
    for page in tunes tunes-book; do
        head -n 1 "$root/docs/$page.1" | grep -q "\"tunes $version\"" ||
            wrong "docs/$page.1 has another version"
        if command -v groff > /dev/null; then
            groff -man -ww -z "$root/docs/$page.1" 2> "$work/err"
            [ ! -s "$work/err" ] || wrong "docs/$page.1: $(head -n 1 "$work/err")"
        fi
    done
    commands > "$work/commands"
    [ "$(($(wc -l < "$work/commands")))" -ge 24 ] || wrong 'the commands of --help are not read'
    while read -r word; do
        case $word in import-check) plain='import\\-check' ;; *) plain=$word ;; esac
        grep -q "^\.BI\{0,1\} \"\{0,1\}$plain\>" "$root/docs/tunes-book.1" ||
            wrong "docs/tunes-book.1 has no $word"
        for page in tunes.bash _tunes; do
            sed -n '/new add import/,/ty[)"]/p; /new add import/,/--version/p' \
                "$root/completions/$page" | grep -q -e "\<$word\>" ||
                wrong "completions/$page has no $word"
        done
    done < "$work/commands"
    end

    for typed_in in bash zsh; do
        if command -v "$typed_in" > /dev/null; then
            completion
        else
            skip "completion of $typed_in" "$typed_in"
        fi
    done

    begin 'installing and releasing'
    # A copy of the repository, with the programs at hand in the place of those that are built.
    mkdir top
    (cd "$root" && tar -cf - --exclude=./.git --exclude=./bench/work --exclude=out \
        --exclude=__pycache__ .) | tar -xf - -C top
    built=top/crates/tunes/out/tunes built_desk=top/crates/tunes_desk/out/tunes_desk
    mkdir -p "${built%/*}" "${built_desk%/*}"
    cp "$program" "$built"
    cp "$desk" "$built_desk"
    printf './%s\n' bin/tunes bin/tunes-book bin/tunes-desk bin/tunes-site \
        share/bash-completion/completions/tunes share/bash-completion/completions/tunes-book \
        share/man/man1/tunes-book.1 \
        share/man/man1/tunes.1 share/zsh/site-functions/_tunes > wanted
    there=to/share/doc/tunes
    for each in sh 'bash --posix' 'busybox sh'; do
        command -v ${each% *} > /dev/null || continue
        rm -rf to
        (umask 077 && DESTDIR=$PWD $each top/install /to) > "$work/out" 2> "$work/err"
        status=$?
        words="install under $each"
        done_with ''
        (cd to && find . ! -type d ! -path './share/doc/tunes/*' ! -path './share/tunes/*' |
            LC_ALL=C sort) > found
        same found wanted
        for part in site clients/python/tunes_archive; do
            diff -r top/$part to/share/tunes/${part##*/} > "$work/told" ||
                wrong "what tunes-site reads differs: $(head -n 1 "$work/told")"
        done
        diff -r top "$there" | grep -v '^Only in top' > "$work/told" &&
            wrong "the pages differ, after '$words': $(head -n 1 "$work/told")"
        (cd "$there" && find . -type f ! -perm 644) > found
        (cd "$there" && find . -type f) | while read -r file; do
            [ ! -x "top/$file" ] || echo "$file"
        done > executable
        same found executable
        (cd to && find . -type f ! -perm 644 ! -perm 755) > found
        same found /dev/null
        diff -r top/examples "$there/examples" > "$work/told" || wrong 'the examples are others'
        for page in README.md CHANGELOG.md LICENSE docs/USING.md docs/SCRIPTS.md \
            docs/ABC-PROFILE.md docs/FILE-FORMAT.md docs/GLOSSARY.md; do
            [ -e "$there/$page" ] || wrong "$page is missing, after '$words'"
        done
    done
    links_of_pages
    ends_with 0
    for each in docs/figures/file.svg docs/GLOSSARY.md examples/save.sh; do
        mv "$there/$each" aside
        links_of_pages
        ends_with 1
        grep -q ": no $each\$" "$work/out" || wrong "'$words' does not miss $each"
        mv aside "$there/$each"
    done
    for link in absent.md ../../wanted; do
        printf '\n[A page](%s)\n' "$link" >> top/docs/USING.md
        top/install "$PWD/none" > "$work/out" 2> "$work/err"
        status=$?
        words="install, of a page that leads to $link"
        ends_with 1
        grep -q "USING.md leads to docs/$link, which is no file" "$work/err" ||
            wrong "'$words' does not say it"
        [ ! -e none ] || wrong "'$words' puts something"
        cp "$root/docs/USING.md" top/docs
    done
    unset TUNES TUNES_DESK
    to/bin/tunes-book -f a.abcx new && to/bin/tunes-book -f a.abcx add "$there/examples" \
        > "$work/out" 2> "$work/err"
    status=$?
    words='add, of what is installed'
    done_with "$there/examples/session.abc: tunes 1 to 15"
    ln -s to/bin/tunes-book book
    ./book -f a.abcx check > "$work/out" 2> "$work/err"
    status=$?
    words='check, by a link'
    done_with 'layout 2 tunes 15 sets 0'
    ./book -f a.abcx find kesh > "$work/out" 2> "$work/err"
    status=$?
    words='find, by a link'
    done_with '1 Kesh Jig, The'
    python3 "$there/examples/read_archive.py" check a.abcx > "$work/out" 2> "$work/err"
    status=$?
    words='the reader that is installed'
    ends_with 0
    grep -q '15 tunes' "$work/out" || wrong "'$words' says '$(head -n 1 "$work/out")'"
    ./book -f a.abcx export wanted.abc
    TUNES=to/bin/tunes sh "$there/examples/save.sh" a.abcx saved.abc export > "$work/told"
    words='save.sh that is installed'
    same saved.abc wanted.abc
    # as USING says it
    rm saved.abc
    ln -s to/bin/tunes to/bin/tunes-book "$there/examples" .
    sh examples/save.sh a.abcx saved.abc export > "$work/told"
    words='save.sh by a link'
    same saved.abc wanted.abc
    # Here it packs quickly, and ./build builds by copies of the programs at hand.
    mkdir tools one two
    printf '#!/bin/sh\n[ "$1" != -9 ] || { shift; set -- -1 "$@"; }\nexec "%s" "$@"\n' \
        "$(command -v gzip)" > tools/gzip
    printf '#!/bin/sh\nprogram=%s desk=%s\n' "$program" "$desk" > tools/rt
    cat >> tools/rt << 'END'
case $1 in
version) echo 'a kit' ;;
ci)
    sleep "${RT_TAKES:-0.1}"
    echo "rt: abc_fields ${RT_SAYS:-proved}"
    [ -z "$RT_SAYS" ] || { echo '23 passed, 1 failed'; exit 1; }
    mkdir -p crates/tunes/out crates/tunes_desk/out
    cp "$program" crates/tunes/out/tunes
    cp "$desk" crates/tunes_desk/out/tunes_desk
    echo '24 passed, 0 failed'
    ;;
esac
END
    chmod +x tools/gzip tools/rt
    was=$PATH
    PATH=$PWD/tools:$PATH
    from_elsewhere='found where this was packed; whether it was proved is not known'
    from_here='proved and built from its sources by ./build, where this was packed'
    release one "$from_elsewhere"
    sleep 1
    release two "$from_elsewhere"
    grep -q '^the C library there: .*[0-9]' found || wrong 'it does not say where it was packed'
    grep -q "^the sha256 of tunes: $(sum_of "$program")\$" found &&
        grep -q "^the sha256 of tunes-desk: $(sum_of "$desk")\$" found ||
        wrong 'BUILT has no sum of a program'
    case $name in
    "tunes-$version-"*) ;;
    *) wrong "the release is named $name" ;;
    esac
    same "one/$name.tar.gz" "two/$name.tar.gz"
    (cd one && sha256sum -c ./*.sha256) > "$work/told" 2>&1 || wrong 'the sum is another'
    gzip -dc "one/$name.tar.gz" | tar -tf - > found
    for each in man/man1/tunes-book.1 doc/tunes/docs/USING.md doc/tunes/examples/read_archive.py; do
        grep -q "/share/$each\$" found || wrong "the release has no $each"
    done
    if command -v dpkg-deb > /dev/null; then
        same "one/$package" "two/$package"
        [ -s "one/$package.sha256" ] || wrong 'the package has no sum'
    fi
    # What ./build saw is said of the programs that it built, and of no others.
    record "$(sum_of "$program")" "$(sum_of "$desk")"
    release two "$from_here"
    for line in 'the kit that proved it: kit-1 logic 2' \
        'the commit of the sources: 0123abcd, with changes' 'the crates that were proved: 24'; do
        grep -qxF "$line" found || wrong "BUILT does not say '$line'"
    done
    touch -d '2001-01-01 00:00:00' "$built.proved" "$built_desk.proved"
    release two "$from_elsewhere"
    record 0000 0000
    release two "$from_elsewhere"
    ! grep -q 'kit\|commit\|crates' found || wrong 'BUILT says more than is known'
    rm "$built.proved" "$built_desk.proved"
    # Without dpkg-deb.
    mkdir without three
    (
        IFS=:
        for each in $was; do ln -s "$each"/* without 2> "$work/told"; done
        rm -f without/dpkg-deb
    )
    PATH=$PWD/tools:$PWD/without
    release three "$from_elsewhere"
    PATH=$PWD/tools:$was
    # a proof that fails leaves no program, and all that was written
    rm "$built"
    RT_SAYS='NOT PROVED' top/tunes --version > "$work/out" 2> "$work/err"
    status=$?
    words='./tunes, of a crate that is not proved'
    ends_with 125
    grep -q ' abc_fields is NOT PROVED$' "$work/err" || wrong "'$words' does not name it"
    [ ! -e "$built" ] && grep -q '^23 passed, 1 failed$' top/crates/tunes/out/build.log ||
        wrong "'$words' leaves a program, or no log"
    # one that is ended leaves neither a program nor a copy
    mkdir temporary
    TMPDIR=$PWD/temporary RT_TAKES=9 top/build > "$work/out" 2> "$work/err" &
    sleep 1
    kill -s TERM $!
    wait $!
    status=$?
    words='./build, ended by TERM'
    ends_with 143
    [ ! -e "$built" ] && [ -z "$(ls temporary)" ] || wrong "'$words' leaves something"
    top/tunes --version > "$work/out" 2> "$work/err"
    status=$?
    words='./tunes that builds'
    ends_with 0
    says "tunes $version"
    for said in 'proving and building tunes: [0-9]* crates on [0-9]* processors, about' \
        '0:0[0-9] abc_fields proved in 0:0[0-9]; [0-9]* crates left' 'tunes is proved and built'; do
        grep -q "$said" "$work/err" || wrong "'$words' does not say '$said'"
    done
    [ ! -e top/crates/tunes/out/build.log ] || wrong "'$words' leaves its log"
    top/build tunes > "$work/out" 2>&1
    same "$work/out" /dev/null
    rm "$built_desk"
    top/tunes-desk --version > "$work/out" 2> "$work/err"
    status=$?
    words='./tunes-desk that builds'
    ends_with 0
    grep -q 'tunes_desk is proved and built' "$work/err" || wrong "'$words' does not say it"
    top/build > "$work/out" 2>&1
    same "$work/out" /dev/null
    for word in other '--anew other' '--front'; do
        top/build $word > "$work/out" 2>&1
        status=$?
        words="./build $word"
        ends_with 2
    done
    release two "$from_here"
    printf x >> "$built"
    printf x >> "$built_desk"
    touch -r "$built.proved" "$built"
    touch -r "$built_desk.proved" "$built_desk"
    release two "$from_elsewhere"
    cp "$program" "$built"
    cp "$desk" "$built_desk"
    release two "$from_elsewhere"
    PATH=$was
    end
}

"$program" make "$work/session.abcx" > "$work/told" || exit 1
{ printf 'import %d\n' "$(($(wc -c < "$book")))"; cat "$book"; } |
    "$program" run "$work/session.abcx" > "$work/told" || exit 1
python3 -B -c 'import sys
sys.path.append(sys.argv[1])
from layouts import kept
sys.stdout.buffer.write(kept("layout-1-two-tunes"))' "$root/checks" > "$work/one.abcx" || exit 1
bash=$(command -v bash)
busybox=$(command -v busybox)
for shell in ${SHELLS:-sh bash busybox}; do
    command -v "$shell" > /dev/null || { printf 'skipped %s: it is not here\n' "$shell"; continue; }
    case $shell in
    bash) shell='bash --posix' ;;
    busybox) shell='busybox sh' ;;
    esac
    for part in ${PARTS:-words options questions books sets edits undo kept copies outs layouts \
        devices programs stops tools}; do
        case $part in pages | progress) ;; *) "cases_of_$part" ;; esac
    done
done
shell='sh'
case ${PARTS-}.${SHELLS-} in *progress*.* | .) cases_of_progress ;; esac
case ${PARTS-}.${SHELLS-} in *pages*.* | .) cases_of_pages ;; esac
[ "$failures" -eq 0 ]
