# shellcheck shell=bash
# To be sourced: the programs, how they are had and run, the folder for what a call keeps beside, and what is cleared away where it is interrupted.

# In an installation the programs stand beside this file, with the loader and the C library that they run under; in a checkout Rattle's kit builds them. Where one stands goes
# into the variable program.
if [[ -d $parts/programs ]]; then
    tools=$parts
    # shellcheck source=launcher/machine.sh
    . "$parts/machine.sh"
    had() { :; }
    program_of() { program=$parts/programs/$1; }
else
    # shellcheck source=launcher/kit.sh
    . "$parts/kit.sh"
    had() { build "$here" "$@" || exit 2; }
    program_of() { program_in "$here" "$1"; }
fi

# Runs a program, with its arguments. Names that it cannot open have others in their place.
run() {
    local program given=() odd=
    stand_in "$@"
    program_of "$1"
    if [[ -z $odd ]]; then
        on_this_machine "$program" "${@:2}"
    else
        { on_this_machine "$program" "${given[@]:1}" 2>&1 >&3 | true_words >&2; } 3>&1
    fi
}

# ---- what a call keeps beside

work=
# Makes the folder for it, which goes with the call.
need_work() {
    [[ -z $work ]] || return 0
    local at=${TMPDIR:-/tmp}
    all_text "$at" || at=/tmp
    work=$(mktemp -d "$at/bhexodana.XXXXXX") || exit 2
}

# Programs that run, and the folders into which they write. What a program writes has a hidden name with its own number in it, until it is whole; and so has what the launcher writes.
running=() places=()

# Starts a program that writes. Where job control is off, what runs beside has no standard input unless it is handed on.
start() {
    local program
    program_of "$1"
    become "$program" "${@:2}" <&0 &
    running+=($!)
}

# Stops them, clears their parts away, and ends. What is whole and has a stand-in's name still takes its own.
interrupted() {
    local pid place
    trap '' INT TERM HUP
    if [[ ${#running[@]} -gt 0 ]]; then
        kill "${running[@]}" 2>/dev/null
        wait
    fi
    take_names 2>/dev/null
    for pid in $$ "${running[@]}"; do
        for place in "${places[@]}"; do
            rm -f -- "$place"/.*."$pid"-????.part
        done
    done
    exit "$1"
}
trap 'interrupted 129' HUP
trap 'interrupted 130' INT
trap 'interrupted 143' TERM
trap '[[ -z $work ]] || rm -rf "$work"' EXIT
