# shellcheck shell=bash
# To be sourced: which files a call may use, and a deck that is read once.

# Whether a file can be read, or what stands against it, into the variable why. A dash is standard input.
can_read() {
    why=
    if [[ $1 == - ]]; then
        return 0
    elif [[ ! -e $1 ]]; then
        why='there is no such file'
    elif [[ -d $1 ]]; then
        why='is a folder'
    elif [[ ! -r $1 ]]; then
        why='may not be read'
    fi
    [[ -z $why ]]
}

# Each of these files can be read, and standard input is named once.
readable() {
    local name dashes=0
    for name; do
        can_read "$name" || unusable "$name" "$why"
        [[ $name != - ]] || dashes=$((dashes + 1))
    done
    [[ $dashes -le 1 ]] || unusable - "standard input is named $dashes times, and can be read once"
}

# The name under which programs open a file, into the variable name.
named() {
    name=$1
    [[ $1 != - ]] || name=/dev/stdin
}

# Whether OUT can be written, or what stands against it, into why: OUT MODE INPUT.. where MODE is that of a file that has the name. OUT may be a new name or that of a plain
# file, but not that of another file of the call; a read-only one only by --force, and by --no-clobber none that is there.
can_write() {
    local out=$1 mode=$2 input shown
    shift 2
    why=
    for input; do
        [[ $input -ef $out ]] || continue
        show "$input"
        why="is the file $shown itself, and would be written over"
    done
    if [[ $out == - || -z $out ]]; then
        why='is no name for what is written; name a file'
    elif [[ -h $out ]]; then
        why='is a link; name the file itself'
    elif [[ -e $out && ! -f $out ]]; then
        why='is no plain file'
    elif [[ -e $out && -z $why ]]; then
        may_replace "$out" "$mode"
    fi
    [[ -z $why ]]
}

# Whether a plain file may be replaced.
may_replace() {
    if [[ -n $no_clobber ]]; then
        why='is there already'
    elif [[ -z $force ]] && { [[ ! -w $1 ]] || (((8#$2 & 8#222) == 0)); }; then
        why='is read-only; --force replaces it'
    fi
}

# The mode of OUT where it is there, or a dash, into the variable mode.
mode_of() {
    mode=-
    [[ ! -f $1 ]] || mode=$(stat -c %a -- "$1")
}

# OUT can be written: OUT INPUT..
writable() {
    local out=$1
    shift
    mode_of "$out"
    can_write "$out" "$mode" "$@" || unusable "$out" "$why"
}

# The folder of a name, into the variable place.
folder_of() {
    case $1 in
        /*/*) place=${1%/*} ;;
        /*) place=/ ;;
        */*) place=${1%/*} ;;
        *) place=. ;;
    esac
}

# ---- decks

# Reads a deck once, also from a pipe, and plans it. Sets deck to a copy, plan to the plan's line, and of_deck to what is said of it. A right deck has at most 5,184 bytes: of one
# that fills the room of the programs the rest is only read to find what refuses it.
planned() {
    local from
    need_work
    named "$1"
    exec {from}<"$name" || exit 2
    head -c 65536 <&"$from" >"$work/deck" || unusable "$1" 'cannot be read'
    deck=$work/deck
    plan=$(cat "$deck" - <&"$from" | run plan_deck 2>"$work/of_deck")
    exec {from}<&-
    of_deck=$(<"$work/of_deck")
    [[ -n $plan ]] || { printf '%s\n' "$of_deck" >&2; exit 2; }
}

# What is said of the deck is said once, behind its name. That stands before the first line alone: the card and the caret, which may follow, stay one under the other.
say_of_deck() {
    local shown
    show "$1"
    [[ -z $of_deck ]] || say "$shown: $of_deck"
}

# Whether the plan that was made refuses the deck, or loses.
is_refused() { [[ $plan != '0 0 '* ]]; }
is_losing() { [[ $plan == '0 0 0 '* ]]; }
