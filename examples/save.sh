#!/bin/sh
# Usage: sh examples/save.sh ARCHIVE FILE COMMAND..
# Asks the archive for a book or a tune, by the words `export`, `export-set NAME` or `show NUM`, and
# writes it to FILE: whole, or FILE stays as it was and the status is 1. Prints the reply. The
# program is ./tunes, or what the variable TUNES names.
tunes=${TUNES:-./tunes}
[ $# -ge 3 ] || { echo 'usage: sh examples/save.sh ARCHIVE FILE COMMAND..' >&2; exit 2; }
archive=$1
file=$2
shift 2
trap 'rm -f "$file.new"' EXIT
trap 'exit 1' HUP INT TERM
printf '%s\n' "$*" | "$tunes" run "$archive" | {
    read -r reply
    echo "$reply"
    cat > "$file.new"
    # the last word of the reply is how many bytes come
    [ "${reply%% *}" = ok ] && [ "$(wc -c < "$file.new")" -eq "${reply##* }" ] &&
        mv "$file.new" "$file"
}
