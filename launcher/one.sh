# shellcheck shell=bash
# To be sourced: the commands for one deck and one reel: plan, check, convert, twins, judge.

# What a program's line says: none is a file that cannot be used, a first number of 0 finished, any other refused.
status_of() {
    case $1 in '') return 2 ;; '0 '*) return 0 ;; *) return 1 ;; esac
}

# Passes a program's line on, and ends as it says.
finish() {
    pass "$1"
    status_of "$1"
}

# What a program said, which waits in a file where words are not wanted, is passed on if it is of a file that cannot be used, so that there is no line.
said_by() {
    [[ -n $1 ]] || cat "$work/words" >&2
}

# Runs a program, and takes its lines into the array lines. Its words are passed on as they come, but wait where they are not wanted.
lines_of() {
    all_text "$@" || need_work
    if [[ -z $quiet ]]; then
        mapfile -t lines < <(run "$@")
        return
    fi
    need_work
    mapfile -t lines < <(run "$@" 2>"$work/words")
    said_by "${lines[0]-}"
}

plan() {
    local given lines=()
    take 'strict table picture force no-clobber json' "$@"
    [[ -n $picture || -z $force ]] || wrong_usage --force 'plan has no such option'
    [[ -n $picture || -z $no_clobber ]] || wrong_usage --no-clobber 'plan has no such option'
    called 'refusal place keeping lost'
    [[ ${#words[@]} -eq 1 ]] || wrong_usage
    given=${words[0]}
    readable "$given"
    [[ -z $picture ]] || writable "$picture" "$given"
    had plan_deck
    named "$given"
    lines_of plan_deck ${table:+table} ${picture:+table} <"$name"
    plan=${lines[0]-}
    finish "$plan" || return
    [[ -z $table ]] || tell_table "${lines[@]:1}"
    [[ -z $picture ]] || write_picture "$given" "${lines[@]:1}"
    [[ -z $strict ]] || ! is_losing || return 3
}

# By --strict a deck that loses ends the call with 3 before anything is run, and one that is refused with 1.
not_losing() {
    [[ -n $strict ]] || return 0
    had plan_deck
    planned "$1"
    if is_losing; then
        say "$of_deck" 'nothing was converted: by --strict the plan has to keep'
        exit 3
    elif is_refused; then
        say "$of_deck"
        pass "${plan% * *} 0 0 0"
        exit 1
    fi
}

# The files that a program is to write: where their parts would stand.
writes() {
    local file
    for file; do
        folder_of "$file"
        places+=("$place")
    done
}

# Runs a program that writes to its end, and takes its line; its words likewise.
line_of() {
    local given=() odd=
    need_work
    stand_in "$@"
    if [[ -n $quiet || -n $odd ]]; then
        start "${given[@]}" >"$work/line" 2>"$work/words"
    else
        start "$@" >"$work/line"
    fi
    wait "${running[@]}"
    running=() line=
    IFS= read -r line <"$work/line"
    [[ -z $odd ]] || true_names
    [[ -z $quiet ]] || said_by "$line"
}

# Runs a deck over a reel, by a form of convert_reels, and ends as its line says.
run_reel() {
    had convert_reels
    line_of convert_reels "$@"
    finish "$line"
}

# The name of the deck for a program: of one that was read already the copy.
deck_name() {
    name=$deck
    [[ -n $deck ]] || named "$1"
}

check() {
    local ours deck=
    take 'strict json' "$@"
    called 'refusal place length records blocks'
    [[ ${#words[@]} -eq 2 ]] || wrong_usage
    readable "${words[@]}"
    not_losing "${words[0]}"
    named "${words[1]}"
    ours=$name
    deck_name "${words[0]}"
    run_reel --check "$name" "$ours"
}

convert() {
    local ours out deck=
    take 'strict force no-clobber json' "$@"
    called 'refusal place length records blocks'
    [[ ${#words[@]} -eq 3 ]] || wrong_usage
    readable "${words[@]:0:2}"
    out=${words[2]}
    writable "$out" "${words[@]:0:2}"
    not_losing "${words[0]}"
    named "${words[1]}"
    ours=$name
    deck_name "${words[0]}"
    writes "$out"
    run_reel --file "$mode" "$name" "$out" "$ours"
}

# Whether two names are those of one file, also of one that is not there yet. A line end at a name's end stays by what is put behind it.
are_one() {
    local one other
    one=$(readlink -f -- "$1" && printf x) || one=$1
    other=$(readlink -f -- "$2" && printf x) || other=$2
    [[ $one == "$other" ]]
}

# A file of twins can be written; the mode that it has already is kept.
twins_file() {
    writable "$1" "$deck"
    [[ $mode == - ]] || kept+=("$mode" "$1")
}

twins() {
    local deck kept=() i
    take 'records reel force no-clobber json' "$@"
    called 'refusal place column reason length'
    [[ ${#words[@]} -eq 1 ]] || wrong_usage
    deck=${words[0]}
    readable "$deck"
    named "$deck"
    set -- "$name"
    if [[ -n $records ]]; then
        twins_file "$records"
        set -- "$@" records "$records"
    fi
    if [[ -n $reel ]]; then
        twins_file "$reel"
        [[ -z $records ]] || ! are_one "$reel" "$records" || unusable "$reel" 'is named for the records too, and would be written over'
        set -- "$@" reel "$reel"
    fi
    had show_twins
    writes "$records" "$reel"
    line_of show_twins "$@"
    for ((i = 0; i < ${#kept[@]}; i += 2)); do chmod "${kept[i]}" -- "${kept[i + 1]}"; done
    finish "$line"
}

# What a line of judge says: none is a file that cannot be used, a first number of 0 yes or no, any other refused.
verdict_of() {
    case $1 in '') return 2 ;; '0 0 0 1 '*) return 0 ;; '0 '*) return 3 ;; *) return 1 ;; esac
}

judge() {
    local names=() word lines=()
    take 'json' "$@"
    called 'refusal place column yes number'
    [[ ${#words[@]} -eq 3 ]] || wrong_usage
    readable "${words[@]}"
    for word in "${words[@]}"; do
        named "$word"
        names+=("$name")
    done
    had judge_reel
    lines_of judge_reel "${names[@]}"
    pass "${lines[0]-}"
    verdict_of "${lines[0]-}"
}
