#!/bin/sh
# Usage: checks/debian.sh [PACKAGE]
# Tries the Debian package PACKAGE, or the one that ./release makes here of the programs that
# ./build made, or of those that the variables TUNES and TUNES_DESK name: what it says and what it
# holds; README's first commands and some others by what it unpacks; and the same in an empty
# Debian, into which it is installed, and where nothing of it stays once it is taken out. Prints a
# line for each case, and ends with status 1 where one failed.
#
# The empty Debian is made by mmdebstrap, as root or in a name space of the user, or by debootstrap,
# as root. It is of the release SUITE, in place of that of this system or the stable one, and comes
# from MIRROR, in place of their own. Where none can be made, `skipped` is printed, and also where
# the variable LEAVE_OUT has the word `debian`, or where there is no dpkg-deb.
# shellcheck disable=SC1091,SC2015,SC2016 # a hook is a script, whose `$` is for itself
case ${1-} in
'' | /*) package=${1-} ;;
*) package=$PWD/$1 ;;
esac
root=$(CDPATH='' cd -- "$(dirname -- "$0")/.." && pwd) || exit 1
program=${TUNES:-$root/crates/tunes/out/tunes}
desk=${TUNES_DESK:-$root/crates/tunes_desk/out/tunes_desk}
case $program in /*) ;; *) program=$PWD/$program ;; esac
case $desk in /*) ;; *) desk=$PWD/$desk ;; esac
unset TUNES TUNES_DESK TUNES_BOOK
LC_ALL=C
export LC_ALL
umask 022
if ! command -v dpkg-deb > /dev/null; then
    echo 'skipped the Debian package: there is no dpkg-deb here'
    exit 0
fi
work=$(mktemp -d) || exit 1
trap 'rm -rf --one-file-system "$work"' EXIT
trap 'exit 1' HUP INT TERM
chmod 755 "$work" && cd "$work" || exit 1
failures=0

begin() {
    title=$1
    why=
}

# Keeps what is wrong in this case; the first counts.
wrong() { [ -n "$why" ] || why=$1; }

end() {
    if [ -z "$why" ]; then
        printf 'ok      %s\n' "$title"
    else
        failures=$((failures + 1))
        printf 'FAILED  %s: %s\n' "$title" "$why"
    fi
}

# Makes the package, by a copy of the repository that has the programs at hand.
make_package() {
    mkdir top released
    (cd "$root" && tar -cf - --exclude=./.git --exclude=./bench/work --exclude=out \
        --exclude=__pycache__ .) | tar -xf - -C top
    mkdir -p top/crates/tunes/out top/crates/tunes_desk/out
    cp "$program" top/crates/tunes/out/tunes &&
        cp "$desk" top/crates/tunes_desk/out/tunes_desk && top/release released > told &&
        package=$(echo "$work"/released/*.deb) && [ -f "$package" ]
}

# The scripts that are run by what is unpacked and in the empty Debian: they print what is wrong.
write_scripts() {
    mkdir try
    cp "$package" try/tunes.deb
    cat > try/use << 'END'
# Runs README's first commands, and others, by the programs on PATH and the pages in the folder $1.
doc=$1
work=$(mktemp -d) && cd "$work" || exit 1
TUNES_BOOK=$work/tunes.abcx
export TUNES_BOOK
# WORDS are to print the last word, on standard output or as an error.
prints() {
    said=$("$@" 2>&1 < /dev/null)
    [ "$said" = "$wanted" ] || echo "'$*' prints '$said' in place of '$wanted'"
}
awk '/^```/ && inside { exit }
    inside
    found && /^```/ { inside = 1 }
    { found = $0 == "<!-- recipe: first -->" }' "$doc/README.md" |
    sed "s|\./tunes-book|tunes-book|g; s|add examples|add $doc/examples|" > first
wanted="$doc/examples/session.abc: tunes 1 to 15"
prints sh ./first
wanted='1 Kesh Jig, The'
prints tunes-book find kesh
wanted=$(sed '/^$/q' "$doc/examples/session.abc" | sed '/^$/d')
prints tunes-book show 1
wanted=
prints tunes-book export all.abc
prints tunes-book -f again.abcx new
wanted='all.abc: tunes 1 to 15'
prints tunes-book -f again.abcx add all.abc
wanted='layout 2 tunes 15 sets 0'
prints tunes check tunes.abcx
# An empty Debian has no Python.
if command -v python3 > told; then
    python3 -B "$doc/examples/read_archive.py" check tunes.abcx > told 2>&1
    grep -q '15 tunes' told || echo "read_archive.py prints '$(tail -n 1 told)'"
fi
if ! command -v python3 > told; then
    wanted='tunes-book: the program python3 is not found; install it, or put it on PATH'
    prints tunes-book site pages
elif command -v abcm2ps > told; then
    wanted='pages: 15 tunes, 0 set lists; 15 tunes drawn'
    prints tunes-book site pages
fi
cd / && rm -rf "$work"
END
    cat > try/inside << 'END'
# Installs the package, tries it, and takes it out again, in two ways.
PATH=/usr/sbin:/usr/bin:/sbin:/bin
LC_ALL=C
export PATH LC_ALL
unset TMPDIR
cd /try || exit 1
echo begun
# All files but those that dpkg keeps for itself; a folder may have any size.
list() {
    find / \( -path /proc -o -path /sys -o -path /dev -o -path /try -o -path /var/lib/dpkg \
        -o -path /var/log \) -prune -o -type d -printf '%p %M %U %G\n' \
        -o -printf '%p %M %U %G %s %l\n' | sort
}
# Calls dpkg by WORDS, which says something only where it fails.
dpkg_does() { dpkg "$@" > told 2>&1 || echo "'dpkg $*' fails: $(tr -s ' \n' '  ' < told)"; }
is_as_before() {
    list > after
    cmp -s before after || echo "$1 leaves: $(diff before after | grep '^[<>]' | head -n 3)"
    ! ls /var/lib/dpkg/info/tunes.* > told 2>&1 || echo "$1 leaves: $(head -n 1 told)"
}
list > before
dpkg_does -i tunes.deb
[ -z "$(dpkg -V tunes 2>&1)" ] || echo "files are not as md5sums says: $(dpkg -V tunes | head -n 1)"
sh ./use /usr/share/doc/tunes
for page in tunes tunes-book; do
    gzip -dc "/usr/share/man/man1/$page.1.gz" | grep -q '^\.SH NAME' || echo "no page $page.1"
    file=/usr/share/bash-completion/completions/$page
    bash -c '. "$1" && complete -p "$2"' - "$file" "$page" > told 2>&1 || echo "no completion $file"
done
[ -f /usr/share/zsh/vendor-completions/_tunes ] || echo 'no completion of zsh'
dpkg_does -r tunes
is_as_before 'a removal'
dpkg_does -i tunes.deb
dpkg_does -P tunes
is_as_before 'a purge'
echo ended
END
}

# What the package says of itself.
case_of_control() {
    begin 'what the package says'
    dpkg-deb --info "$package" > info 2>&1 || wrong "dpkg-deb --info: $(tail -n 1 info)"
    dpkg-deb --field "$package" > fields
    version=$(unpacked/usr/bin/tunes --version)
    printf '%s\n' 'Package: tunes' "Version: ${version#tunes }" \
        "Architecture: $(dpkg --print-architecture)" \
        'Recommends: abcm2ps, abcmidi, ghostscript, python3' 'Section: sound' \
        'Priority: optional' > wanted
    while read -r line; do
        grep -qxF "$line" fields || wrong "no line '$line'"
    done < wanted
    for form in 'Maintainer: .* <.*@.*>' 'Installed-Size: [1-9][0-9]*' 'Description: .*'; do
        grep -qx "$form" fields || wrong "no line '$form'"
    done
    [ "$(basename "$package")" = "$(sed -n 's/^Package: //p' fields)_$(
        sed -n 's/^Version: //p' fields)_$(sed -n 's/^Architecture: //p' fields).deb" ] ||
        wrong 'its name is another'
    # dpkg-shlibdeps asks for what is needed in its own way.
    if command -v dpkg-shlibdeps > /dev/null; then
        mkdir -p source/debian && echo 'Source: tunes' > source/debian/control
        depends=$(cd source && dpkg-shlibdeps -O --ignore-missing-info ../unpacked/usr/bin/tunes \
            ../unpacked/usr/bin/tunes-desk 2> ../told | sed -n 's/^shlibs:Depends=/Depends: /p')
        grep -qxF "$depends" fields ||
            wrong "it says '$(grep '^Depends' fields)' in place of '$depends'"
    fi
    # Of the programs it says what the note does.
    sed -n 's/^  *//; /^tunes was/,$p' fields | tr -s ' \n' '  ' > told
    note=unpacked/usr/share/doc/tunes/BUILT
    sed -n '/^tunes was/,/^the sha256 of/{ /^the sha256 /d; p; }' "$note" |
        tr -s ' \n' '  ' > wanted
    [ -s wanted ] && cmp -s told wanted || wrong "it says '$(cat told)', and BUILT '$(cat wanted)'"
    end
}

# What it holds, with owners, modes and times.
case_of_contents() {
    begin 'what the package holds'
    dpkg-deb --contents "$package" > contents || wrong 'dpkg-deb --contents fails'
    awk '$2 != "root/root" || $1 !~ /^(drwxr-xr-x|-rwxr-xr-x|-rw-r--r--)$/ ||
        $6 !~ /^\.\/(usr\/.*)?$/ { print; exit }' contents > told
    [ ! -s told ] || wrong "it has '$(cat told)'"
    [ "$(awk '{ print $4, $5 }' contents | sort -u | wc -l)" -eq 1 ] || wrong 'the times differ'
    (cd unpacked && find usr -type f ! -path 'usr/share/doc/*' ! -path 'usr/share/tunes/*' |
        sort) > found
    printf 'usr/%s\n' bin/tunes bin/tunes-book bin/tunes-desk bin/tunes-site \
        share/bash-completion/completions/tunes share/bash-completion/completions/tunes-book \
        share/man/man1/tunes-book.1.gz \
        share/man/man1/tunes.1.gz share/zsh/vendor-completions/_tunes > wanted
    diff wanted found > told || wrong "programs and their pages are others: $(sed -n 2p told)"
    for page in tunes tunes-book; do
        gzip -dc "unpacked/usr/share/man/man1/$page.1.gz" | cmp -s - "$root/docs/$page.1" ||
            wrong "$page.1 is another"
    done
    (cd "$root" && ls site/*.* && cd clients/python && ls tunes_archive/*.*
        echo read_archive.py; echo search_keys.py) | sort > wanted
    (cd unpacked/usr/share/tunes && find . -type f | sed 's|^\./||' | sort) > found
    diff wanted found > told || wrong "what tunes-site reads is other: $(sed -n 2p told)"
    doc=unpacked/usr/share/doc/tunes
    for page in copyright README.md docs/USING.md examples/read_archive.py; do
        [ -f "$doc/$page" ] || wrong "it has no $page"
    done
    python3 "$root/checks/pages.py" --links "$doc" > told 2>&1 || wrong "$(head -n 1 told)"
    dpkg-deb --control "$package" control
    (cd unpacked && md5sum -c --quiet ../control/md5sums) > told 2>&1 || wrong "$(head -n 1 told)"
    sed 's/^[^ ]*  //' control/md5sums > told
    (cd unpacked && find usr -type f | sort) | cmp -s - told || wrong 'md5sums has other files'
    [ "$(ls control)" = "$(printf 'control\nmd5sums')" ] || wrong 'more is in DEBIAN'
    end
}

case_of_unpacked() {
    begin 'the first commands by what is unpacked'
    PATH=$work/unpacked/usr/bin:$PATH sh try/use "$work/unpacked/usr/share/doc/tunes" > told 2>&1
    [ ! -s told ] || wrong "$(head -n 3 told)"
    end
}

# Makes the empty Debian, and runs try/inside there.
by_mmdebstrap() {
    command -v mmdebstrap > /dev/null || return
    timeout 300 mmdebstrap --quiet --variant=essential --format=null --dpkgopt=force-unsafe-io \
        --aptopt='Acquire::Retries "1"' --aptopt='Acquire::http::Timeout "20"' \
        --customize-hook="copy-in '$work/try' /" --customize-hook='chroot "$1" sh /try/inside' \
        "$suite" /dev/null ${MIRROR:+"$MIRROR"} > told 2>&1
}

by_debootstrap() {
    command -v debootstrap > /dev/null && [ "$(id -u)" -eq 0 ] || return
    timeout 600 debootstrap --variant=minbase "$suite" "$work/debian" ${MIRROR:+"$MIRROR"} \
        > told 2>&1 && cp -R try debian && chroot debian sh /try/inside >> told 2>&1
}

case_of_debian() {
    begin 'installing into an empty Debian, and taking out again'
    case " ${LEAVE_OUT-} " in
    *' debian '*) echo "skipped $title: it is left out"; return ;;
    esac
    suite=${SUITE:-$(. /etc/os-release; [ "$ID" != debian ] || echo "${VERSION_CODENAME-}")}
    suite=${suite:-stable}
    echo 'there is neither mmdebstrap nor, for root, debootstrap' > told
    by_mmdebstrap || grep -qx begun told || by_debootstrap
    if ! grep -qx begun told; then
        echo "skipped $title: none can be made: $(tail -n 1 told)"
        return
    fi
    grep -qx ended told || wrong "it breaks off: $(tail -n 1 told)"
    sed -n '/^begun$/,/^ended$/{ /^begun$/d; /^ended$/d; p; }' told > wrongs
    [ ! -s wrongs ] || wrong "$(head -n 3 wrongs)"
    end
}

if [ -z "$package" ] && ! make_package; then
    echo "FAILED  no package is made of $program"
    exit 1
fi
dpkg-deb -x "$package" unpacked || exit 1
write_scripts
case_of_control
case_of_contents
case_of_unpacked
case_of_debian
[ "$failures" -eq 0 ]
