# Completion of `tunes` and `tunes-book` for bash.

_tunes() {
    local word=${COMP_WORDS[COMP_CWORD]}
    COMPREPLY=()
    case $COMP_CWORD.${COMP_WORDS[1]} in
    1.*)
        mapfile -t COMPREPLY < <(compgen -W 'list make run check upgrade --help --version' \
            -- "$word") ;;
    2.make | 2.run | 2.check | 2.upgrade) _tunes_files "$word" ;;
    esac
}

_tunes_files() {
    compopt -o filenames 2> /dev/null
    mapfile -t COMPREPLY < <(compgen -f -- "$1")
}

# The words of the command are counted from the one behind the options. Names of set lists are asked
# for, which opens the archive.
_tunes_book() {
    local word=${COMP_WORDS[COMP_CWORD]} at=1 file=${TUNES_BOOK-} command names=''
    local finding='--within --title --rhythm --key --notes --in'
    COMPREPLY=()
    while [ "$at" -lt "$COMP_CWORD" ]; do
        case ${COMP_WORDS[at]} in
        -f)
            # The word is as it was typed.
            file=${COMP_WORDS[at + 1]-} at=$((at + 2))
            case $file in
            \"*\" | \'*\') file=${file:1:${#file}-2} ;;
            \~/*) file=$HOME${file:1} ;;
            esac
            file=${file//\\/} ;;
        --wait) at=$((at + 2)) ;;
        --json | --csv | --force) at=$((at + 1)) ;;
        *) break ;;
        esac
    done
    command=${COMP_WORDS[at]-}
    if [ "$at" -gt "$COMP_CWORD" ]; then
        _tunes_files "$word"
        return
    fi
    case $((COMP_CWORD - at)).$command.$word in
    0.*) names='new add import-check find count random titles twins sets show edit replace delete
        undo set put cut drop move export print hear site backup restore dump load check ask
        upgrade help -f --wait --json --csv --force --help --version' ;;
    1.find.* | 1.random.*) names="title rhythm key notes $finding --json --csv" ;;
    1.count.*) names="title rhythm key notes $finding" ;;
    1.set.* | 1.put.* | 1.cut.* | 1.move.* | 1.drop.* | 2.export.* | 2.print.* | 2.site.*)
        names=$("${COMP_WORDS[0]}" -f "$file" sets 2> /dev/null | cut -d ' ' -f 1) ;;
    *.add.-*) names='--new --split --dry --good --show-lost --carry' ;;
    *.backup.-*) names='--keep' ;;
    1.export.-* | 1.print.-*) names='--force --tune' ;;
    1.hear.-* | 1.dump.-* | 1.restore.-*) names='--force' ;;
    1.undo.*) names='--list --to --json --csv' ;;
    *.replace.-*) names='--revision' ;;
    1.titles.* | 1.twins.* | 1.sets.*) names='--json --csv' ;;
    *.add.* | *.import-check.* | 1.export.* | 1.print.* | 1.backup.* | 1.restore.* | 1.dump.* | \
        1.load.* | 1.site.* | 1.check.* | 2.hear.* | 2.replace.*) _tunes_files "$word"; return ;;
    esac
    mapfile -t COMPREPLY < <(compgen -W "$names" -- "$word")
}

complete -F _tunes tunes
complete -F _tunes_book tunes-book
