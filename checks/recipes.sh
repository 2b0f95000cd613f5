#!/bin/sh
# Usage: checks/recipes.sh
# Runs each recipe of README.md, docs/USING.md and docs/PLAYERS.md as it is printed there, over the
# programs ./tunes and ./tunes-desk, or over those that the variables TUNES and TUNES_DESK name.
# Prints a line for each case, and ends with status 1 where one failed. A recipe is a block of code
# below a line <!-- recipe: NAME -->.
# shellcheck disable=SC2015,SC2059,SC2086 # words of a line are split; a form is an argument
root=$(CDPATH='' cd -- "$(dirname -- "$0")/.." && pwd) || exit 1
program=${TUNES:-$root/tunes}
case $program in
/*) ;;
*) program=$PWD/$program ;;
esac
desk=${TUNES_DESK:-$root/tunes-desk}
case $desk in
/*) ;;
*) desk=$PWD/$desk ;;
esac
# tunes-book and the scripts of examples/ run ./tunes and ./tunes-desk, which each case has
unset TUNES TUNES_DESK TUNES_BOOK VISUAL
work=$(mktemp -d) || exit 1
trap 'rm -rf "$work"' EXIT
trap 'exit 1' HUP INT TERM
failures=0
cases=0
ran=' '

# The blocks of code below the marks that begin with these words; `name` ends at a comma or a space.
blocks() {
    for page in "$root/README.md" "$root/docs/USING.md" "$root/docs/PLAYERS.md"; do
        awk -v mark="<!-- $1: $2" '
            /^```/ && inside { exit }
            inside { print }
            found && /^```/ { inside = 1 }
            { found = index($0, mark " ") == 1 || index($0, mark ",") == 1 }
        ' "$page" > "$work/block"
        [ -s "$work/block" ] && cat "$work/block" && return
    done
    return 1
}

# Begins a case: a new folder with the program and the examples in it.
begin() {
    cases=$((cases + 1))
    title=$1
    why=
    mkdir "$work/$cases" && cd "$work/$cases" || exit 1
    ln -s "$program" tunes
    ln -s "$desk" tunes-desk
    ln -s "$root/tunes-book" tunes-book
    ln -s "$root/examples" examples
    ln -s "$root/clients" clients
}

# Keeps what is wrong in this case; the first counts.
wrong() {
    [ -n "$why" ] || why=$1
}

# Runs a recipe, of which the words `mine.abc` may be read as another file.
run() {
    ran="$ran$1 "
    if blocks recipe "$1" | sed "s/mine\.abc/${2:-mine.abc}/g" > "$work/recipe"; then
        sh "$work/recipe" < /dev/null > "$work/out" 2> "$work/err"
        status=$?
    fi
    [ -s "$work/recipe" ] || wrong "no page has the recipe $1"
}

ends_with() {
    [ "$status" -eq "$1" ] || wrong "status $status in place of $1: $(head -n 1 "$work/err")"
}

says() {
    [ "$(cat "$work/out")" = "$1" ] || wrong "it says '$(head -n 1 "$work/out")' in place of '$1'"
}

same() {
    cmp -s -- "$1" "$2" || wrong "$1 is not what it should be"
}

# The folder has these files, and no others.
has() {
    there=$(find . ! -name . ! -type l ! -path '*pages/*' | sed 's|^\./||' | LC_ALL=C sort |
        tr '\n' ' ')
    [ "$there" = "${1:+$1 }" ] || wrong "the files are '$there' in place of '$1'"
}

# A reader that goes by the page of the format alone reads the archives of the folder as the program
# does: the book, and the names of the set lists with how many places each has.
read_apart() {
    for file in *.abcx; do
        [ -f "$file" ] || continue
        echo export | ./tunes run "$file" > "$work/told" 2> "$work/err" || continue
        sed 1d "$work/told" > "$work/book"
        python3 "$root/examples/read_archive.py" book "$file" > "$work/apart" 2> "$work/err"
        cmp -s "$work/book" "$work/apart" || wrong "another reader reads $file otherwise"
        echo sets | ./tunes run "$file" 2> "$work/err" | sed 1d > "$work/told"
        python3 "$root/examples/read_archive.py" sets "$file" 2> "$work/err" |
            cut -d ' ' -f 1,2 > "$work/apart"
        cmp -s "$work/told" "$work/apart" || wrong "another reader reads other sets in $file"
        python3 "$root/examples/read_archive.py" check "$file" > "$work/apart" 2> "$work/err" ||
            wrong "another reader finds $file damaged: $(cat "$work/err")"
    done
}

# Ends a case.
end() {
    read_apart
    if [ -z "$why" ]; then
        printf 'ok      %s\n' "$title"
    else
        failures=$((failures + 1))
        printf 'FAILED  %s: %s\n' "$title" "$why"
    fi
}

# Cases of programs that are not installed everywhere.
skip() {
    ran="$ran$1 "
    printf 'skipped %s: there is no %s here\n' "$1" "$2"
}

book=$root/examples/session.abc
export=$work/export.abc
{ printf '%%abc-2.1\n\n' && cat "$book"; } > "$export"
returns=$work/returns.abc
sed 's/$/\r/' "$book" > "$returns"

begin 'the README'\''s script'
run try
ends_with 0
same "$work/out" "$root/crates/tunes/stdout"
end

begin 'a book in and out'
cp "$book" mine.abc
run own-tunes
ends_with 0
says 'ok import 1 15'
same book.abc "$export"
same mine.abc "$book"
has 'book.abc mine.abc'
end

begin 'a book in and out, over an older book'
cp "$book" mine.abc
echo older > book.abc
run own-tunes
ends_with 0
same book.abc "$export"
has 'book.abc mine.abc'
end

begin 'a book whose last line has no line feed'
printf 'X:7\nT:Last\nK:C\nCDE' > mine.abc
run own-tunes
ends_with 0
says 'ok import 1 1'
printf '%%abc-2.1\n\nX:1\nT:Last\nK:C\nCDE\n' > "$work/wanted"
same book.abc "$work/wanted"
end

begin 'a book with carriage returns'
cp "$returns" mine.abc
run own-tunes
ends_with 0
says 'ok import 1 15'
same book.abc "$export"
same mine.abc "$returns"
has 'book.abc mine.abc'
end

begin 'an export of the archive'
cp "$export" mine.abc
run own-tunes
ends_with 0
says 'ok import 1 15'
same book.abc "$export"
end

begin 'a book with a byte order mark and a file header'
{
    printf '\357\273\277%%abc-2.1\r\nM:6/8\r\nT:All\r\n\r\n'
    printf 'X:9\rM:4/4\rK:C\rX:8\nK:D\n'
} > mine.abc
run own-tunes
ends_with 0
says 'ok import 1 2'
printf '%%abc-2.1\n\nX:1\nM:4/4\nK:C\n\nX:2\nM:6/8\nK:D\n' > "$work/wanted"
same book.abc "$work/wanted"
end

begin 'a refused book beside an older one'
printf 'X:1\nT:Keyless\n' > mine.abc
echo older > book.abc
run own-tunes
ends_with 1
echo older > "$work/wanted"
same book.abc "$work/wanted"
has 'book.abc mine.abc'
end

begin 'a folder of books'
printf 'X:4\nK:C\n' > a.abc
printf 'X:1\nT:Keyless\n' > b.abc
printf 'R:jig\r\n\r\nX:1\r\nK:D\r\n' > c.abc
run folder
ends_with 0
says 'a.abc: ok import 1 1
b.abc: refused 2 BadTune 1 NoKey
c.abc: ok import 2 2'
printf '%%abc-2.1\n\nX:1\nK:C\n\nX:2\nR:jig\nK:D\n' > "$work/wanted"
same all.new "$work/wanted"
end

begin 'a book without a tune'
echo 'a remark' > mine.abc
run own-tunes
ends_with 1
says 'refused 1 NoTune'
has 'mine.abc'
end

begin 'a tune without a key'
printf 'X:1\nT:Keyless\n' > mine.abc
run own-tunes
ends_with 1
says 'refused 2 BadTune 1 NoKey'
has 'mine.abc'
end

begin 'no book at all'
run own-tunes
ends_with 1
says 'refused 1 NoTune'
has ''
end

begin 'an export that breaks off'
rm tunes
printf '#!/bin/sh\necho ok import 1 1\necho ok export 50\necho %%abc-2.1\n' > tunes
chmod +x tunes
cp "$book" mine.abc
run own-tunes
ends_with 1
has 'mine.abc tunes'
end

begin 'an export that is refused'
rm tunes
printf '#!/bin/sh\necho ok import 1 1\necho refused 21 OutOfMemory\n' > tunes
chmod +x tunes
cp "$book" mine.abc
run own-tunes
ends_with 1
has 'mine.abc tunes'
end

begin 'one tune of a book'
cp "$book" mine.abc
run one-tune
ends_with 0
says 'ok import 1 15'
sed -n '/^X:3$/,/^$/p' "$book" | sed '$d' > "$work/wanted"
same tune.abc "$work/wanted"
has 'mine.abc tune.abc'
end

begin 'one tune that is not there'
printf 'X:1\nK:C\n' > mine.abc
run one-tune
ends_with 1
says 'ok import 1 1'
has 'mine.abc'
end

begin 'two who change a tune'
run replace
ends_with 0
blocks output replace > "$work/wanted"
same "$work/out" "$work/wanted"
end

begin 'finding tunes'
run find
ends_with 0
blocks output find > "$work/wanted"
same "$work/out" "$work/wanted"
end

begin 'the bytes of an archive of one tune'
./tunes make tunes.abcx > "$work/out"
./tunes run tunes.abcx < examples/kesh-jig.script > "$work/out" 2> "$work/err"
status=$?
ends_with 0
# Twelve pages, the root, the tune, and a leaf and a list of each index, and a log of twelve entries
# behind them.
[ "$(wc -c < tunes.abcx)" -eq 114736 ] || wrong 'the file is not as long as it should be'
root_front=$(od -An -tx1 -j16384 -N4 tunes.abcx)
[ "$root_front" = ' 00 00 00 02' ] || wrong "page 0 begins with$root_front"
end

begin 'a file that is no archive'
cp "$book" mine.abc
./tunes check mine.abc > "$work/out" 2> "$work/err"
status=$?
ends_with 3
says 'refused 40 NotArchive'
same mine.abc "$book"
end

begin 'an archive that is cut'
cp "$book" mine.abc
./tunes make tunes.abcx > "$work/out"
head -c 20479 tunes.abcx > cut.abcx
echo export | ./tunes run cut.abcx > "$work/out" 2> "$work/err"
status=$?
ends_with 3
says 'refused 41 Damaged'
end

begin 'a book of fifteen tunes'
run session
ends_with 0
[ "$(grep -c '^ok show ' replies.txt)" -eq 15 ] || wrong 'it does not show fifteen tunes'
sed '1,/^ok export /d' replies.txt > book.abc
same book.abc "$export"
end

# AN ARCHIVE IN A FILE

# Goes on in the folder of the case before.
go_on() {
    cases=$((cases + 1))
    title=$1
    why=
}

# Runs a recipe once more, and says so.
run_again() {
    status=
    title="$title, and again"
    run "$1"
}

# What the archive holds, by `check`, and the numbers and places of its set lists.
holds() {
    found=$(./tunes check tunes.abcx 2> "$work/err")
    [ "$found" = "$1" ] || wrong "the archive holds '$found' in place of '$1'"
}

# The number of the page that has these words, as another reader tells it.
page_of() {
    page=0
    until python3 examples/read_archive.py where tunes.abcx "$page" | grep -q ": $1\$"; do
        page=$((page + 1))
        [ "$page" -lt 1000 ] || return
    done
    echo "$page"
}

# The tunes of an archive with their numbers, and its set lists.
contents() {
    names=$(echo sets | ./tunes run "$1" | sed '1d; s/ .*//; s/^/set-show /')
    printf '%s\n' export sets "$names" | ./tunes run "$1"
}

# A tune of the book as an archive shows it.
shown() {
    sed -n "/^X:$1\$/,/^\$/p" "$book" | sed '/^$/d'
}

# The program before it is proved: that takes minutes of a processor, so it runs beside the others.
mkdir "$work/look"
ln -s "$root/crates" "$root/examples" "$work/look"
blocks recipe look > "$work/look.sh"
command -v rt > "$work/told" && (
    cd "$work/look" || exit
    sh "$work/look.sh" < /dev/null > "$work/look.out" 2> "$work/look.err"
    echo $? > "$work/look.status"
) &

begin 'the archive of the README'
run first
ends_with 0
says 'examples/session.abc: tunes 1 to 15'
holds 'layout 2 tunes 15 sets 0'
end

go_on 'the first steps of the README'
run begin
says '1 Kesh Jig, The'
if command -v abcm2ps > "$work/told" && command -v ps2pdf > "$work/told"; then
    ends_with 0
    has 'friday.pdf tunes.abcx tunes.abcx.old.abc'
    run_again begin
    ends_with 1
    grep -q 'friday.pdf is there' "$work/err" || wrong 'it does not say why'
else
    ends_with 4
    has 'tunes.abcx tunes.abcx.old.abc'
    run_again begin
    ends_with 4
fi
says '1 Kesh Jig, The'
holds 'layout 2 tunes 15 sets 1'
end

begin 'making an archive'
cp "$book" mine.abc
run make
ends_with 0
says ''
run_again make
ends_with 3
grep -q 'there is such a file' "$work/err" || wrong 'it does not say why'
holds 'layout 2 tunes 0 sets 0'
end

go_on 'adding a book'
run add
ends_with 0
says 'mine.abc: tunes 1 to 15'
cp tunes.abcx once.abcx
run_again add
ends_with 0
says 'mine.abc: tunes 16 to 30'
./tunes-book -f tunes.abcx undo > "$work/out" 2> "$work/err"
status=$?
ends_with 0
says 'tunes 16 to 30 are out again'
mv once.abcx tunes.abcx
holds 'layout 2 tunes 15 sets 0'
echo export | ./tunes run tunes.abcx | sed 1d > "$work/found"
same "$work/found" "$export"
end

go_on 'trying a book first'
run import-check
ends_with 0
says 'mine.abc: 15 tunes'
[ ! -s "$work/err" ] || wrong "it says of a good book: $(head -n 1 "$work/err")"
run_again import-check
ends_with 0
says 'mine.abc: 15 tunes'
end

go_on 'finding tunes in a file'
wanted='1 Kesh Jig, The
6 Drowsy Maggie
9 Fig for a Kiss, A
3 Tripping Up the Stairs'
run find-title
ends_with 0
says "$wanted"
run_again find-title
ends_with 0
says "$wanted"
end

go_on 'finding tunes by notes as they are printed'
wanted='6 Drowsy Maggie
3 Tripping Up the Stairs'
run find-notes
ends_with 0
says "$wanted"
run_again find-notes
ends_with 0
says "$wanted"
end

go_on 'finding tunes by several conditions'
for title in "$title" "$title, and again"; do
    run find-both
    ends_with 0
    sed '$d' "$work/out" > "$work/found"
    printf '%s\n' '1 Kesh Jig, The' '2 Irish Washerwoman, The' 5 > "$work/wanted"
    same "$work/found" "$work/wanted"
    case $(tail -n 1 "$work/out") in
    '6 Drowsy Maggie' | '7 Speed the Plough') ;;
    *) wrong "it chooses '$(tail -n 1 "$work/out")'" ;;
    esac
done
end

go_on 'tunes that are there twice'
run twins
ends_with 0
says ''
cp tunes.abcx once.abcx
./tunes-book -f tunes.abcx add mine.abc > "$work/out" 2> "$work/err"
run_again twins
ends_with 0
[ "$(head -n 1 "$work/out")" = '16 1 text Kesh Jig, The' ] ||
    wrong "it says '$(head -n 1 "$work/out")' of tune 16"
cut -d ' ' -f 1-3 "$work/out" > "$work/found"
for number in 1 2 3 4 5 6 7 8 9 10 11 12 13 14 15; do
    echo "$((number + 15)) $number text"
done > "$work/wanted"
same "$work/found" "$work/wanted"
mv once.abcx tunes.abcx
end

go_on 'looking at a tune'
shown 3 > "$work/tune"
run show
ends_with 0
same "$work/out" "$work/tune"
run_again show
ends_with 0
same "$work/out" "$work/tune"
end

go_on 'changing a tune'
export EDITOR='sed -i s/^R:.*/R:slide/'
run change
ends_with 0
says 'tune 3 has revision 2 now'
sed 's/^R:.*/R:slide/' "$work/tune" > "$work/wanted"
run_again change
ends_with 0
says 'tune 3 is not changed'
echo show 3 | ./tunes run tunes.abcx | sed 1d > "$work/found"
same "$work/found" "$work/wanted"
holds 'layout 2 tunes 15 sets 0'
has 'mine.abc tunes.abcx tunes.abcx.old.abc'
end

go_on 'changing a tune by a book'
cp tunes.abcx "$work/before"
run put-back
ends_with 0
says 'tune 3 has revision 3 now'
sed 's/^R:.*/R:reel/' "$work/tune" > "$work/wanted"
same new.abc "$work/wanted"
echo show 3 | ./tunes run tunes.abcx | sed 1d > "$work/found"
same "$work/found" "$work/wanted"
run_again put-back
ends_with 0
says 'tune 3 is not changed'
cp "$work/before" tunes.abcx
rm new.abc tune.abc
end

go_on 'undoing'
echo export | ./tunes run tunes.abcx > "$work/wanted"
run undo
ends_with 0
says 'tune 15 is there again'
run_again undo
ends_with 0
echo export | ./tunes run tunes.abcx > "$work/found"
same "$work/found" "$work/wanted"
end

go_on 'undoing several changes'
blocks output undo-to > "$work/told"
run undo-to
ends_with 0
{ sed -n 1,3p "$work/out" && sed -n '/ again$/p; / was$/p' "$work/out"; } > "$work/found"
same "$work/found" "$work/told"
run_again undo-to
ends_with 0
./tunes-book -f tunes.abcx undo --to 2 > "$work/out" 2> "$work/err"
status=$?
ends_with 0
echo export | ./tunes run tunes.abcx > "$work/found"
same "$work/found" "$work/wanted"
holds 'layout 2 tunes 15 sets 0'
end

go_on 'a set list in a file'
run set
ends_with 0
says '1 5 Blarney Pilgrim, The
2 3 Tripping Up the Stairs'
run_again set
ends_with 0
holds 'layout 2 tunes 15 sets 1'
end

if command -v abcm2ps > "$work/out" && command -v ps2pdf > "$work/out"; then
    go_on 'printing'
    run print-set
    ends_with 0
    cp friday.pdf "$work/wanted"
    run_again print-set
    ends_with 1
    grep -q 'friday.pdf is there' "$work/err" || wrong 'it does not say why'
    same friday.pdf "$work/wanted"
    has 'friday.pdf mine.abc tunes.abcx tunes.abcx.old.abc'
    rm friday.*
    end
else
    skip print-set 'abcm2ps or ps2pdf'
fi

go_on 'a book of some tunes'
run export
ends_with 0
says 1
{ printf '%%abc-2.1\n\n' && shown 3 | sed 's/^R:.*/R:slide/' && echo && shown 1; } > "$work/wanted"
same two.abc "$work/wanted"
cp friday.abc "$work/friday"
run_again export
ends_with 0
says 1
grep -q 'two.abc is there' "$work/err" || wrong 'it does not say why'
same two.abc "$work/wanted"
same friday.abc "$work/friday"
rm friday.abc two.abc
end

if command -v abc2midi > "$work/out"; then
    go_on 'hearing'
    run hear-set
    ends_with 0
    run_again hear-set
    ends_with 1
    grep -q 'first.mid is there' "$work/err" || wrong 'it does not say why'
    has 'first.mid mine.abc tunes.abcx tunes.abcx.old.abc'
    rm first.mid
    end
else
    skip hear-set abc2midi
fi

if command -v abcm2ps > "$work/out" && command -v python3 > "$work/out"; then
    go_on 'pages for the web'
    run site
    ends_with 0
    grep -q '^pages: 15 tunes, 1 set list; 15 tunes drawn$' "$work/out" || wrong 'it says another'
    run_again site
    ends_with 0
    grep -q '^pages: 15 tunes, 1 set list; 0 tunes drawn$' "$work/out" || wrong 'it draws again'
    has 'friday-pages mine.abc pages tunes.abcx tunes.abcx.old.abc'
    rm -r pages friday-pages
    end
else
    skip site 'abcm2ps or python3'
fi

# Another program has the archive open, by these words, until `let_go`.
hold() {
    # The loop waits for the first reply, and not for one that is left from before.
    rm -f "$work/replies"
    mkfifo script
    "$@" < script > "$work/replies" &
    exec 9> script
    echo 'set-show friday' >&9
    tries=0
    while [ ! -s "$work/replies" ] && [ "$tries" -lt 100 ]; do
        sleep 0.1
        tries=$((tries + 1))
    done
}

let_go() {
    exec 9>&-
    wait
    rm script
}

go_on 'asking beside one that asks'
hold ./tunes-book -f tunes.abcx ask
run wait
ends_with 0
says '1 Kesh Jig, The'
run_again wait
ends_with 0
says '1 Kesh Jig, The'
./tunes run tunes.abcx < /dev/null > "$work/out" 2> "$work/err"
status=$?
ends_with 1
let_go
end

go_on 'asking beside one that may change it'
hold ./tunes run tunes.abcx
./tunes-book -f tunes.abcx find kesh > "$work/out" 2> "$work/err"
status=$?
ends_with 1
says ''
grep -q 'another program has it open' "$work/err" || wrong 'it does not say why'
(sleep 1 && exec 9>&-) &
exec 9>&-
run wait
ends_with 0
says '1 Kesh Jig, The'
let_go
end

go_on 'questions of another program'
cp tunes.abcx "$work/before"
wanted=$(printf '%s\n' 'find title kesh' 'set-show friday' | ./tunes run tunes.abcx)
case $wanted in
'ok find 1
1 Kesh Jig, The
ok set-show friday '*) ;;
*) wrong "tunes run answers '$wanted'" ;;
esac
run questions
ends_with 0
says "$wanted"
run_again questions
ends_with 0
says "$wanted"
printf '%s\n' 'delete 15' 'show 1' | ./tunes-book -f tunes.abcx ask > "$work/out" 2> "$work/err"
status=$?
ends_with 1
says 'refused 22 Device'
same tunes.abcx "$work/before"
end

go_on 'backing up'
rm tunes.abcx.old.abc
copy=backup/$(date +%F).abcx
run back-up
ends_with 0
says ''
same "$copy" tunes.abcx
cp "$copy" "$work/wanted"
run sums
ends_with 0
says 'no copy has changed'
run_again back-up
ends_with 0
says "the copy is $copy.1"
same "$copy" "$work/wanted"
same "$copy.1" tunes.abcx
run sums
says 'no copy has changed'
has "backup $copy $copy.1 $copy.1.sha256 $copy.sha256 mine.abc tunes.abcx"
rm "$copy.1" "$copy.1.sha256"
end

go_on 'backing up while a program has the archive open'
mv "$copy" "$work/copy.abcx"
mv "$copy.sha256" "$work/copy.sum"
hold ./tunes run tunes.abcx
echo 'delete 15' >&9
run back-up
ends_with 1
let_go
holds 'layout 2 tunes 14 sets 1'
has 'backup mine.abc tunes.abcx'
mv "$work/copy.abcx" "$copy"
mv "$work/copy.sum" "$copy.sha256"
end

go_on 'restoring'
head -c 20000 tunes.abcx > front && mv front tunes.abcx
holds 'refused 41 Damaged'
run restore
ends_with 0
says 'layout 2 tunes 15 sets 1
the archive that was there is tunes.abcx.1.old now'
same tunes.abcx "$copy"
run_again restore
ends_with 0
says 'layout 2 tunes 15 sets 1
the archive that was there is tunes.abcx.2.old now'
same tunes.abcx "$copy"
same tunes.abcx.2.old "$copy"
has "backup $copy $copy.sha256 mine.abc tunes.abcx tunes.abcx.1.old tunes.abcx.2.old"
rm tunes.abcx.*
end

go_on 'a damaged archive'
cp tunes.abcx whole
echo export | ./tunes run tunes.abcx | sed 1d > "$work/all"
friday=$(echo 'set-show friday' | ./tunes run tunes.abcx | awk 'NR > 1 { printf " %s", $2 }')
page=$(page_of 'tune 7')
printf '\0\0' | dd of=tunes.abcx bs=1 seek=$((16384 + 4096 * page + 4)) conv=notrunc 2> "$work/err"
holds 'refused 41 Damaged'
cp tunes.abcx "$work/damaged"
run damaged
ends_with 1
same tunes.abcx "$work/damaged"
same damaged.abcx "$work/damaged"
[ "$(cat damage.txt)" = "0 bytes of page $page of tune 7 count" ] ||
    wrong "it tells of '$(head -n 1 damage.txt)'"
awk 'BEGIN { RS = ""; ORS = "\n\n" } !/^X:7\n/' "$work/all" | sed '$d' > "$work/wanted"
same salvaged.abc "$work/wanted"
grep -q '^tune 7 is left out$' left-out.txt || wrong 'tune 7 is not told to be left out'
grep -q "^the set list friday has the tunes$friday\$" left-out.txt || wrong 'no set list is told'
mv whole tunes.abcx
./tunes-book -f tunes.abcx add --new salvaged.abc > "$work/out"
says 'salvaged.abc: all its tunes are there already, 14'
run_again damaged
ends_with 0
[ ! -s damage.txt ] && [ ! -s left-out.txt ] || wrong 'a whole archive is told to be damaged'
same salvaged.abc "$work/all"
rm damage* salvaged.abc left-out.txt
end

go_on 'going over to another archive by a script'
printf '%s\n' 'renumber 15 900' 'delete 7' 'set-add friday 900' 'set-new 0_-z' |
    ./tunes run tunes.abcx > "$work/out"
run dump
ends_with 0
cp tunes.script "$work/script"
run_again dump
ends_with 1
grep -q 'tunes.script is there' "$work/err" || wrong 'it does not say why'
same tunes.script "$work/script"
./tunes-book -f tunes.abcx dump --force tunes.script
same tunes.script "$work/script"
run load
ends_with 0
contents tunes.abcx > "$work/wanted"
contents new.abcx > "$work/found"
same "$work/found" "$work/wanted"
grep -q '^X:900$' "$work/found" || wrong 'no tune has the number 900'
cp new.abcx "$work/new"
title="$title, and again"
run load
ends_with 1
grep -q 'new.abcx is there' "$work/err" || wrong 'it does not say why'
same new.abcx "$work/new"
./tunes-book -f new.abcx dump again.script
same again.script "$work/script"
end

begin 'trying a book that is refused'
printf 'X:1\nT:Good\nK:C\nCDE\n\nW:a verse below an empty line\n\nX:2\nT:Keyless\n' > mine.abc
run import-check
ends_with 1
says ''
blocks output import-check > "$work/wanted"
same "$work/err" "$work/wanted"
printf 'X:1\nK:C\n\n%%%%sep\n\nX:2\nK:D\n' > mine.abc
run import-check
ends_with 0
says 'mine.abc: 2 tunes; 1 line of it goes into no tune, and is not kept'
grep -q '^tunes-book: mine.abc:4: .*though it changes how a sheet looks: %%sep$' "$work/err" ||
    wrong 'it does not name the line'
has mine.abc
end

begin 'going over to layout 2'
cp "$book" mine.abc
./tunes make tunes.abcx > "$work/out"
# the version of the root, as a file of layout 1 without a tune has it
printf '\001' | dd of=tunes.abcx bs=1 seek=16387 conv=notrunc 2> "$work/err"
./tunes-book -f tunes.abcx add mine.abc > "$work/out"
./tunes-book -f tunes.abcx put friday 3 1 > "$work/out"
holds 'layout 1 tunes 15 sets 1'
contents tunes.abcx > "$work/wanted"
cp tunes.abcx "$work/old"
run upgrade
ends_with 0
says 'it is of layout 2 now'
holds 'layout 2 tunes 15 sets 1'
contents tunes.abcx > "$work/found"
same "$work/found" "$work/wanted"
same copy.abcx "$work/old"
cp tunes.abcx "$work/new"
run_again upgrade
ends_with 0
same tunes.abcx "$work/new"
same copy.abcx "$work/old"
./tunes-book -f tunes.abcx restore copy.abcx > "$work/out"
holds 'layout 1 tunes 15 sets 1'
end

# SCRIPTS ON AN ARCHIVE IN A FILE

begin 'asking by a script'
cp "$book" mine.abc
{ echo "ok show 3 1 $(wc -c < "$work/tune")" && cat "$work/tune"; } > "$work/shown"
run ask
ends_with 0
says "made
mine.abc: tunes 1 to 15
ok find 1
1 Kesh Jig, The
$(cat "$work/shown")"
run_again ask
ends_with 0
says "refused 42 NotEmpty
mine.abc: all its tunes are there already, 15
ok find 1
1 Kesh Jig, The
$(cat "$work/shown")"
holds 'layout 2 tunes 15 sets 0'
has 'mine.abc tunes.abcx tunes.abcx.old.abc'
end

go_on 'replacing a tune by a script'
export EDITOR='sed -i s/^R:.*/R:slide/'
run replace-tune
ends_with 0
says 'ok replace 3 2'
same tune.old "$work/tune"
sed 's/^R:.*/R:slide/' "$work/tune" > "$work/wanted"
same tune.abc "$work/wanted"
run_again replace-tune
ends_with 0
says 'ok replace 3 3'
echo show 3 | ./tunes run tunes.abcx | sed 1d > "$work/found"
same "$work/found" "$work/wanted"
holds 'layout 2 tunes 15 sets 0'
end

go_on 'replacing a tune that somebody else changes meanwhile'
cat > editor << 'END'
{ echo "replace 3 3 $(wc -c < tune.old)"; cat tune.old; } | ./tunes run tunes.abcx > other.out
sed -i s/^R:.*/R:reel/ "$1"
END
export EDITOR='sh editor'
run replace-tune
says 'refused 5 Stale 4'
echo show 3 | ./tunes run tunes.abcx | sed 1d > "$work/found"
same "$work/found" "$work/wanted"
rm editor other.out
end

go_on 'a set list by a script'
places='ok set-new friday
ok set-add friday 1
ok set-add friday 2
ok set-show friday 2
1 3 Tripping Up the Stairs
2 1 Kesh Jig, The'
run set-script
ends_with 0
says "refused 11 NoSuchSet
$places"
run_again set-script
ends_with 0
says "ok set-drop friday
$places"
holds 'layout 2 tunes 15 sets 1'
end

go_on 'a book that is saved whole, or not at all'
run save
ends_with 0
{ printf '%%abc-2.1\n%% set friday\n\nX:1\n' && sed 1d "$work/wanted" && printf '\nX:2\n' &&
    shown 1 | sed 1d; } > "$work/set"
same friday.abc "$work/set"
sh examples/save.sh tunes.abcx friday.abc export-set saturday > "$work/out" 2> "$work/err"
status=$?
ends_with 1
says 'refused 11 NoSuchSet'
same friday.abc "$work/set"
rm friday.abc tune.*
has 'mine.abc tunes.abcx tunes.abcx.old.abc'
end

# Takes the archive of a script over to a new one by a script, and compares the two.
goes_over() {
    ./tunes make tunes.abcx > "$work/out"
    ./tunes run tunes.abcx > "$work/out"
    ! grep refused "$work/out" > "$work/err" || wrong 'a command of the case is refused'
    run dump
    run load
    ends_with 0
    contents tunes.abcx > "$work/wanted"
    contents new.abcx > "$work/found"
    same "$work/found" "$work/wanted"
}

# An import of what follows, in which \n and \NNN are read as printf does.
import() {
    printf "$1" > "$work/book"
    printf 'import %d\n' "$(wc -c < "$work/book")" && cat "$work/book"
}

begin 'going over with nothing in the archive'
goes_over < /dev/null
end

begin 'going over with one tune of a great number, and sets of odd names'
{
    import 'X:1\nK:C\n'
    printf '%s\n' 'renumber 1 999999' 'set-new -' 'set-add - 999999' 'set-add - 999999'
    printf '%s\n' 'set-new 0' 'set-new ok' 'set-new set-show' 'set-add set-show 999999'
    echo 'set-new abcdefghijklmnopqrstuvwxyz_-0123456789AB'
} > script
goes_over < script
end

begin 'going over with gaps, empty titles, titles of any bytes, and long tunes'
{
    import 'X:1\nT:\nK:C\n\nX:2\nT:\nT:b\nK:D\n\nX:3\nK:E\n\nX:4\nT:ok set-show a 1\nK:F\n'
    import 'X:1\nT:\\a %% * "\047\nK:C\n%% a\nimport 7\n\nX:2\nT:\351t\351\377\001\nK:D\n'
    import "X:1\nT:long\nK:C\n$(awk 'BEGIN { for (i = 0; i < 1900; i++) printf "abcdef |" }')\n"
    import '\357\273\277M:6/8\r\n\r\nX:9\r\nT:Windows\r\nK:G\r\nGAB|\r\n'
    printf '%s\n' 'delete 2' 'renumber 8 20' 'renumber 1 21' 'delete 6' 'set-new a' 'set-new b'
    printf '%s\n' 'set-add a 4' 'set-add a 3' 'set-add a 4' 'set-add b 21' 'set-add b 5'
} > script
goes_over < script
end

begin 'going over from an archive that is not there'
run dump
ends_with 1
has ''
end

# PLAYERS

begin 'lines and replies of a player'
./tunes make tunes.abcx > "$work/out"
./tunes-book -f tunes.abcx add "$book" > "$work/out"
./tunes-book -f tunes.abcx put friday 3 1 > "$work/out"
blocks output player-lines > "$work/wanted"
run player-lines
ends_with 0
same "$work/out" "$work/wanted"
run_again player-lines
ends_with 0
same "$work/out" "$work/wanted"
end

go_on 'the versions of the programs, and the layout'
run player-versions
ends_with 0
sed 's/[0-9]*\.[0-9]*\.[0-9]*$/VERSION/' "$work/out" > "$work/found"
printf '%s\n' 'tunes VERSION' 'tunes-book VERSION' 'layout 2 tunes 15 sets 1' > "$work/wanted"
same "$work/found" "$work/wanted"
[ "$(sed 's/.* //; 2q' "$work/out" | uniq | wc -l)" -eq 1 ] || wrong 'the programs differ'
end

# What the players print: the tunes of some notes, a tune, and a set list.
{ echo '3 Tripping Up the Stairs' && shown 3 &&
    printf '%s\n' '1 3 Tripping Up the Stairs' '2 1 Kesh Jig, The'; } > "$work/played"

if command -v cc > "$work/out"; then
    go_on 'a player in C'
    run player-c
    ends_with 0
    same "$work/out" "$work/played"
    run_again player-c
    ends_with 0
    same "$work/out" "$work/played"
    end
else
    skip player-c cc
fi

if command -v python3 > "$work/out" && [ -d clients/python ]; then
    go_on 'a player in Python'
    run player-python
    ends_with 0
    # In columns: the number of a tune has six, a place three.
    { echo '     3  Tripping Up the Stairs' && shown 3 &&
        printf '%s\n' '  1.       3  Tripping Up the Stairs' '  2.       1  Kesh Jig, The'; } \
        > "$work/played"
    same "$work/out" "$work/played"
    end
else
    skip player-python 'python3, or no clients/python'
fi

# FILES THAT CANNOT BE USED

# The last run was answered 22, and a line of standard error names the file.
cannot_use() {
    ends_with 1
    says 'refused 22 Device'
    case $(cat "$work/err") in
    "tunes: $1: "*) ;;
    *) wrong "standard error has '$(head -n 1 "$work/err")', and nothing of $1" ;;
    esac
    [ "$(wc -l < "$work/err")" -eq 1 ] || wrong 'standard error has not one line'
}

begin 'an archive that is not there'
for word in run check; do
    ./tunes "$word" tunes.abcx < /dev/null > "$work/out" 2> "$work/err"
    status=$?
    cannot_use tunes.abcx
done
./tunes make folder/tunes.abcx > "$work/out" 2> "$work/err"
status=$?
cannot_use folder/tunes.abcx
has ''
end

begin 'a folder in the place of an archive'
mkdir tunes.abcx
for word in make run check; do
    ./tunes "$word" tunes.abcx < /dev/null > "$work/out" 2> "$work/err"
    status=$?
    cannot_use tunes.abcx
done
has tunes.abcx
end

begin 'an archive that another program has open'
./tunes make tunes.abcx > "$work/out"
cp tunes.abcx "$work/wanted"
for word in make run check; do
    flock tunes.abcx ./tunes "$word" tunes.abcx < /dev/null > "$work/out" 2> "$work/err"
    status=$?
    cannot_use tunes.abcx
done
same tunes.abcx "$work/wanted"
end

# Runs a command as somebody who may not open every file, as root may.
as_nobody() {
    if [ "$(id -u)" -eq 0 ]; then
        setpriv --reuid=65534 --regid=65534 --clear-groups "$@"
    else
        "$@"
    fi
}

chmod 755 "$work"
begin 'an archive without permission'
./tunes make tunes.abcx > "$work/out"
cp tunes.abcx "$work/wanted"
if as_nobody ./tunes --version > "$work/out" 2> "$work/err"; then
    for mode in 0 444; do
        chmod "$mode" tunes.abcx
        for word in make run check; do
            as_nobody ./tunes "$word" tunes.abcx < /dev/null > "$work/out" 2> "$work/err"
            status=$?
            cannot_use tunes.abcx
        done
    done
    chmod 600 tunes.abcx
    same tunes.abcx "$work/wanted"
    end
else
    printf 'skipped %s: nobody but root may run the program here\n' "$title"
fi

begin 'making an archive where the disk is full'
(
    trap '' XFSZ
    ulimit -f 4
    exec ./tunes make tunes.abcx
) > "$work/out" 2> "$work/err"
status=$?
ends_with 1
says 'refused 22 Device'
rm -f tunes.abcx
run make
ends_with 0
holds 'layout 2 tunes 0 sets 0'
end

# STREAMS THAT ARE CLOSED OR FULL

# Runs a command with some of the streams 0, 1 and 2 closed, the others over files; it reads script.
closing() {
    streams=$1
    shift
    : > "$work/out"
    : > "$work/err"
    (
        exec < script > "$work/out" 2> "$work/err"
        case $streams in *0*) exec <&- ;; esac
        case $streams in *1*) exec >&- ;; esac
        case $streams in *2*) exec 2>&- ;; esac
        exec ./tunes "$@"
    )
    status=$?
}

# The status is 1 where standard output is closed, and else this one.
ends_unless_closed() {
    case $streams in *1*) fits=1 ;; *) fits=$1 ;; esac
    [ "$status" -eq "$fits" ] ||
        wrong "status $status in place of $fits where the streams $streams are closed"
}

every='0 1 2 01 02 12 012'

begin 'making an archive with streams closed'
./tunes make tunes.abcx > "$work/out"
: > script
for closed in $every; do
    closing "$closed" make "made-$closed"
    ends_unless_closed 0
    # it was made, or is not there
    [ ! -e "made-$closed" ] || same "made-$closed" tunes.abcx
    [ "$status" -ne 0 ] || [ -e "made-$closed" ] || wrong 'no archive was made'
done
end

begin 'checking an archive with streams closed'
./tunes make tunes.abcx > "$work/out"
./tunes run tunes.abcx < examples/kesh-jig.script > "$work/out"
cp tunes.abcx "$work/wanted"
: > script
for closed in $every; do
    closing "$closed" check tunes.abcx
    ends_unless_closed 0
    [ "$status" -ne 0 ] || says 'layout 2 tunes 1 sets 0'
    same tunes.abcx "$work/wanted"
    closing "$closed" check absent.abcx
    ends_with 1
    closing "$closed" check script
    ends_unless_closed 3
done
[ ! -s script ] || wrong 'a file that is no archive was written'
has 'script tunes.abcx'
end

begin 'running a script over an archive with streams closed'
./tunes make tunes.abcx > "$work/out"
./tunes run tunes.abcx < examples/kesh-jig.script > "$work/out"
cp tunes.abcx "$work/wanted"
echo 'show 1' > script
for closed in $every; do
    closing "$closed" run tunes.abcx
    same tunes.abcx "$work/wanted"
    # without an input there is no reply to write
    case $closed in
    *0*) [ "$status" -eq 0 ] || wrong "status $status at an input that is closed" ;;
    *) ends_unless_closed 0 ;;
    esac
    case $closed in
    *[01]*) ;;
    *) [ "$(head -n 1 "$work/out")" = 'ok show 1 1 50' ] || wrong 'no reply is written' ;;
    esac
done
[ "$(cat script)" = 'show 1' ] || wrong 'the script was written'
# a command whose reply cannot be written took place, and the run ends there
import 'X:1\nK:C\n' > script
for closed in 1 12; do
    cp "$work/wanted" tunes.abcx
    cat script script > twice && mv twice script
    closing "$closed" run tunes.abcx
    ends_with 1
    holds 'layout 2 tunes 2 sets 0'
done
end

begin 'running a script in memory with streams closed'
echo export > script
for closed in $every; do
    closing "$closed" list
    case $closed in
    *0*) [ "$status" -eq 0 ] || wrong "status $status at an input that is closed" ;;
    *) ends_unless_closed 0 ;;
    esac
done
[ "$(cat script)" = export ] || wrong 'the script was written'
has script
end

if [ -e /dev/full ]; then
    begin 'replies where standard output is full'
    ./tunes make tunes.abcx > /dev/full 2> "$work/err"
    status=$?
    ends_with 1
    holds 'layout 2 tunes 0 sets 0'
    for words in 'make tunes.abcx' 'check tunes.abcx' 'check absent.abcx'; do
        ./tunes $words > /dev/full 2> "$work/err"
        status=$?
        ends_with 1
    done
    for words in 'run tunes.abcx' list; do
        ./tunes $words < examples/kesh-jig.script > /dev/full 2> "$work/err"
        status=$?
        ends_with 1
    done
    holds 'layout 2 tunes 1 sets 0'
    end
fi

begin 'help and version where standard output is closed or full'
: > script
for word in --help --version; do
    for closed in 1 12 01 012; do
        closing "$closed" "$word"
        ends_with 1
        ! grep -q 'Error: ' "$work/err" || wrong 'standard error has a raw error'
    done
    if [ -e /dev/full ]; then
        ./tunes "$word" > /dev/full 2> "$work/err"
        status=$?
        ends_with 1
        ! grep -q 'Error: ' "$work/err" || wrong 'standard error has a raw error'
    fi
done
end

begin 'the script of an archive of version 102'
./tunes make new.abcx > "$work/out" 2> "$work/err"
./tunes run new.abcx < "$root/checks/data/from-102.script" > replies.txt 2> "$work/err"
status=$?
ends_with 0
! grep -q refused replies.txt || wrong 'a command of the script is refused'
printf '%s\n' export sets 'set-show 0_-z' 'set-show empty' 'set-show friday' |
    ./tunes run new.abcx > "$work/out" 2> "$work/err"
same "$work/out" "$root/checks/data/from-102.contents"
end

if command -v rt > "$work/told"; then
    begin 'a look before anything is proved'
    wait
    ran="${ran}look "
    cp "$work/look.out" "$work/out"
    cp "$work/look.err" "$work/err"
    status=$(cat "$work/look.status")
    ends_with 0
    cat > wanted << 'END'
ok import 1 1
ok show 1 1 50
X:1
T:The Kesh Jig
R:jig
M:6/8
K:G
G3 GAB|A3 ABd|
refused 4 Unknown 2
ok find 1
1 Kesh Jig, The
END
    same "$work/out" wanted
    rm wanted
    # what the archive of the examples holds
    cp examples/session.abcx tunes.abcx
    holds 'layout 2 tunes 15 sets 1'
    end
else
    skip look rt
fi

# Each recipe that the pages print was run.
names=$(sed -n 's/^<!-- recipe: \([a-z-]*\).*/\1/p' "$root/README.md" "$root/docs/USING.md" \
    "$root/docs/PLAYERS.md")
for name in $names; do
    case $ran in
    *" $name "*) ;;
    *)
        failures=$((failures + 1))
        printf 'FAILED  the recipe %s was run by no case\n' "$name"
        ;;
    esac
done

[ "$failures" -eq 0 ]
