# shellcheck shell=bash
# To be sourced: stand-ins for names that are not UTF-8. The programs open files by the standard library of Rattle, whose names are texts, and a name on this system may have any
# bytes. So a program gets another name in such a one's place: a link in the folder of the call for what it reads, and for what it writes a hidden name in the folder that is meant,
# which takes its own name once it is whole. What the program prints and says has the names that are meant again. Calls whose names are all texts have none of this.

# Whole characters in UTF-8, as of the standard: no longer form than is needed, no half of a pair, nothing past U+10FFFF.
characters=$'[\x01-\x7f]|[\xc2-\xdf]'$next$'|\xe0[\xa0-\xbf]'$next$'|[\xe1-\xec\xee\xef]'$next$next$'|\xed[\x80-\x9f]'$next$'|\xf0[\x90-\xbf]'$next$next$'|[\xf1-\xf3]'$next$next$next$'|\xf4[\x80-\x8f]'$next$next
characters="^($characters)*$"

# Whether each of these names is a text.
all_text() {
    local LC_ALL=C name
    [[ "$*" == *[$'\x80'-$'\xff']* ]] || return 0
    for name; do [[ $name =~ $characters ]] || return 1; done
}

# How many there are; how those that stand for a name are shown and how that is; what is meant by those that stand for an output, and by those for a reel of many.
stands=0
declare -A told_as=() meant=() reel_of=()

# One for a file or a folder that is there, into the variable stand: FILE. It looks like a part of this call, so that one which is written is cleared away as such.
stand_for() {
    local at=$1
    [[ $at == /* ]] || at=/proc/self/cwd/$at
    stands=$((stands + 1))
    stand=$work/.$stands.$$-0000.part
    ln -sfn -- "$at" "$stand" || exit 2
    tell_as "$stand" "$1"
}

# Where the first name is told, the second is meant.
tell_as() {
    local shown as
    show "$2"
    as=$shown
    show "$1"
    told_as[=$shown]=$as
}

# One for an output, under which a program writes it: FILE.
stand_for_output() {
    local place
    folder_of "$1"
    stand_for "$place"
    stand+=/${stand##*/}
    meant[$stand]=$1
    tell_as "$stand" "$1"
}

# Whether word number N, from 1, of a program's is the name of an output: PROGRAM N.
is_output() {
    case $1 in
        convert_reels) [[ $2 -eq 4 ]] ;;
        show_twins) [[ $2 -gt 1 ]] ;;
        *) false ;;
    esac
}

# A program and its words, with stand-ins, into the array given; odd tells whether there are any. Asks for the folder of the call where there are.
stand_in() {
    local i stand
    given=("$@") odd=
    ! all_text "$@" || return 0
    odd=yes
    for ((i = 1; i < $#; i++)); do
        if all_text "${given[i]}"; then
            continue
        elif is_output "$1" "$i"; then
            stand_for_output "${given[i]}"
        else
            stand_for "${given[i]}"
        fi
        given[i]=$stand
    done
}

# The same for programs that convert many: the entries of the list, into the array asked, and the folder, into the variable into.
stand_in_list() {
    local i reel stand
    asked=("${list[@]}") into=$folder odd=
    ! all_text "$folder" "${list[@]}" || return 0
    odd=yes
    stand_for "$folder"
    into=$stand
    for i in "${!asked[@]}"; do
        reel=${asked[i]#* }
        all_text "$reel" && continue
        stand_for "$reel"
        asked[i]="${asked[i]%% *} $stand"
        reel_of[=$stand]=$reel
        meant[$into/${stand##*/}]=$folder/${reel##*/}
        tell_as "$into/${stand##*/}" "$folder/${reel##*/}"
    done
}

# What was written under stand-ins takes the names that are meant. Says which cannot, which then stay as they were, and whose reels have no name then; fails where there was one.
take_names() {
    local stand said status=0
    for stand in "${!meant[@]}"; do
        [[ -f $stand ]] || continue
        said=$(LC_ALL=C mv -fT -- "$stand" "${meant[$stand]}" 2>&1) && continue
        complain "${meant[$stand]}" "${said##*: }"
        rm -f -- "$stand"
        reel_of[=$work/${stand##*/}]=
        status=1
    done
    return $status
}

# Words of a program, in which the names that are meant stand again. A name stands at the start of a line, before a colon, or is that of a folder with a name in it.
true_words() {
    local LC_ALL=C line rest name shown
    show "$work"
    while IFS= read -r line || [[ -n $line ]]; do
        if [[ $line == "$shown"/* ]]; then
            rest=${line#"$shown"/}
            name=$shown/${rest%%: *}
            [[ -n ${told_as[=$name]-} ]] || name=${name%/*}
            [[ -z ${told_as[=$name]-} ]] || line=${told_as[=$name]}${line#"$name"}
        fi
        printf '%s\n' "$line"
    done
}

# The words that wait in a file: FILE.
true_words_in() {
    true_words <"$1" >"$work/true" && mv -f "$work/true" "$1"
}

# Behind a program that ran to its end with stand-ins: its words are passed on, and its line counts only if what it wrote has its name.
true_names() {
    true_words_in "$work/words"
    [[ -n $quiet ]] || cat "$work/words" >&2
    take_names || { line=; : >"$work/words"; }
}

# Behind those that converted many: their lines and words, which wait in files. A reel whose output could not take its name has no line.
true_parts() {
    local i line numbers name lines
    take_names
    for ((i = 0; i < count_parts; i++)); do
        true_words_in "$work/words.$i"
        mapfile -d '' -t lines <"$work/lines.$i"
        for line in "${lines[@]}"; do
            if apart "$line" && [[ $name == "$work"/* ]]; then
                [[ -n ${reel_of[=$name]-} ]] || continue
                line="$numbers ${reel_of[=$name]}"
            fi
            printf '%s\0' "$line"
        done >"$work/true"
        mv -f "$work/true" "$work/lines.$i"
    done
}
