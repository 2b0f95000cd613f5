#!/bin/sh
# Usage: clients/c/check.sh
# Builds the client in C, without a warning and with the sanitizers where these work, and tries it
# over the built programs of crates/tunes/out and crates/tunes_desk/out, or those that the variables
# TUNES and TUNES_DESK name. Where there are no sanitizers, valgrind looks; where there is neither,
# that is said. CC is the compiler. Prints a line for each case, and ends with 1 where one failed.
# shellcheck disable=SC2013,SC2015 # words of a page are split; C of `A && B || C` may run
set -u
root=$(CDPATH='' cd -- "$(dirname -- "$0")/../.." && pwd) || exit 1
here=$root/clients/c
TUNES=${TUNES:-$root/crates/tunes/out/tunes}
TUNES_DESK=${TUNES_DESK:-$root/crates/tunes_desk/out/tunes_desk}
case $TUNES in /*) ;; *) TUNES=$PWD/$TUNES ;; esac
case $TUNES_DESK in /*) ;; *) TUNES_DESK=$PWD/$TUNES_DESK ;; esac
CASES=$root/crates/test_scripts/data
FAKE=$here/fake.sh
export TUNES TUNES_DESK CASES FAKE
unset TUNES_BOOK FAKE_BEFORE
compiler=${CC:-cc}
strict='-std=c11 -Wall -Wextra -Werror -pedantic -g'

command -v "$compiler" > /dev/null || {
    echo "there is no C compiler $compiler here"
    exit 1
}
"$TUNES" --version > /dev/null && "$TUNES_DESK" --version > /dev/null || {
    echo 'the programs are not built: ./build'
    exit 1
}
# in memory, where there is such a place: each change is synced
work=$(mktemp -d /dev/shm/tunes-client.XXXXXX 2> /dev/null || mktemp -d) || exit 1
trap 'rm -rf "$work"' EXIT
trap 'exit 1' HUP INT TERM
cd "$work" || exit 1
failed=0

wrong() {
    printf 'FAILED  %s\n' "$1"
    failed=1
}

# Builds a program of these files, with these options.
# shellcheck disable=SC2086 # words of options
build() {
    made=$1
    options=$2
    shift 2
    "$compiler" $strict $options -o "$made" "$@" "$here/tunes_archive.c"
}

# Whether what is built with these options runs here.
works() {
    echo 'int main(void) { return 0; }' > try.c
    # shellcheck disable=SC2086 # words of options
    "$compiler" $1 -o try try.c 2> told && ./try 2> told
}

looker=
sanitizers='-fsanitize=address,undefined -fno-sanitize-recover=all'
if works "$sanitizers"; then
    build check_archive "$sanitizers" "$here/check_archive.c" || exit 1
else
    build check_archive '' "$here/check_archive.c" || exit 1
    if command -v valgrind > told; then
        looker='valgrind -q --error-exitcode=99 --leak-check=full --child-silent-after-fork=yes'
    else
        echo 'skipped memory: there are no sanitizers, and there is no valgrind here'
    fi
fi
# without them too, as users build it
build optimized -O2 "$here/check_archive.c" || exit 1
build player -O2 "$here/player.c" || exit 1

# shellcheck disable=SC2086 # words of a command
$looker ./check_archive > told 2>&1 || failed=1
grep -v -e '^sent ' -e '^refused ' told
./optimized killed calls printed several streams signals large > again 2>&1 ||
    wrong "optimized: $(grep -v '^ok ' again | head -n 3)"

# Each command of the page was sent, and each refusal of the page was met.
page=$root/docs/SCRIPTS.md
sed -n '/^## Commands/,/^## Refusals/s/^| `\([a-z-]*\).*/\1/p' "$page" | sort -u > commands
[ "$(wc -l < commands)" -ge 16 ] || wrong 'the page has fewer commands'
for command in $(cat commands); do
    grep -qx "sent $command" told || wrong "no $command was sent"
done
for number in $(sed -n 's/^| `refused \([0-9]*\) .*/\1/p' "$page" | sort -u) 40 41 42; do
    grep -qx "refused $number" told || wrong "no refusal $number was met"
done

# The player, over the book of fifteen tunes, as the front end's program tells.
{ printf 'import %d\n' "$(wc -c < "$root/examples/session.abc")" &&
    cat "$root/examples/session.abc" &&
    printf 'set-new friday\nset-add friday 3\nset-add friday 1\n'; } > script
"$TUNES" make tunes.abcx > made && "$TUNES" run tunes.abcx < script > replies || failed=1

# The player says what the program says to these words.
same() {
    ./player tunes.abcx "$1" "$2" > found 2> errors || wrong "player $1 $2: $(cat errors)"
    shift 2
    "$TUNES_DESK" -f tunes.abcx "$@" > wanted 2> errors
    cmp -s found wanted || wrong "the player answers '$(head -n 1 found)' to $*"
}
same find 'E2BE dEBE' find notes 'E2BE dEBE'
same find 'G3 GAB' find notes 'G3 GAB'
same find 'FAA GBB' find notes 'FAA GBB'
same show 3 show 3
same set friday set friday
./player tunes.abcx show 99 > found 2> errors
[ $? -eq 1 ] && grep -q 'refused 4 Unknown 99' errors || wrong 'the player shows a tune 99'
./player tunes.abcx play 1 > found 2> errors
[ $? -eq 2 ] || wrong 'the player knows a word play'
[ "$failed" -eq 0 ] && echo 'ok      the player'
exit "$failed"
