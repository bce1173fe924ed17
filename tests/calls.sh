# shellcheck shell=bash
# To be sourced: calls of the launcher and what is compared of them, and reels made from digits. Works in a folder of its own, which goes with the test. Sets root,
# paper, ensemble and work, and counts passed and failed.
set -u
root=$(cd "$(dirname "${BASH_SOURCE[0]}")/.." && pwd -P)
# shellcheck disable=SC2034 # for whom it is sourced by
paper=$root/examples/paper ensemble=$root/examples/ensemble
work=$(mktemp -d) || exit 1
trap 'rm -rf "$work"' EXIT
cd "$work" || exit 1
# shellcheck source=tests/tally.sh
. "$root/tests/tally.sh"

# The programs are built before anything is compared: a call that has to build one says so among its own words.
# shellcheck source=launcher/kit.sh
. "$root/launcher/kit.sh"
build "$root" plan_deck convert_reels show_twins judge_reel || exit 1

check() {
    if [[ $2 == "$3" ]]; then
        passed=$((passed + 1))
        return
    fi
    failed=$((failed + 1))
    printf 'FAILED: %s\n  expected %s\n  found    %s\n' "$1" "$2" "$3"
}

# Calls the launcher and compares its status and its lines: NAME STATUS LINES WORDS..
call() {
    local name=$1 status=$2 lines=$3 found
    shift 3
    found=$("$root/bhexodana" "$@" 2>said)
    check "$name: status" "$status" "$?"
    check "$name: lines" "$lines" "$found"
}

hex() { od -An -v -tx1 "$1" | tr -d ' \n' | tr a-f A-F; }

# ---- decks

# LINE SAID CARD..: a deck's plan, and how often this is said of it
planned() {
    printf '%s\n' "${@:3}" '// END' >planned.deck
    "$root/bhexodana" plan planned.deck >line 2>said
    check "${*:3}: line" "$1" "$(cat line)"
    check "${*:3}: said" 1 "$(grep -c "$2" said)"
}

# Plans a deck of these cards, which is refused, and compares what is said of it: NAME LINE SAID CARD..
shown() {
    local name=$1 line=$2 words=$3
    shift 3
    printf '%s\n' "$@" '// END' >shown.deck
    call "$name" 1 "$line" plan shown.deck
    check "$name: said" "$words" "$(cat said)"
}

# So many of a card.
many() { awk -v card="$1" -v n="$2" 'BEGIN { for (i = 0; i < n; i++) print card }'; }

# ---- reels

byte() { printf '%b' "\\0$(printf %03o "$1")"; }
word() { byte $(($1 / 16777216 % 256)); byte $(($1 / 65536 % 256)); byte $(($1 / 256 % 256)); byte $(($1 % 256)); }
bytes() { head -c "$1" /dev/zero; }

# Makes a reel of these blocks, which are written in hexadecimal: FILE BLOCK..
reel_of() {
    local file=$1 at=$((4 * $# + 4)) block
    shift
    {
        word $#
        word $at
        for block; do
            at=$((at + ${#block} / 2))
            word $at
        done
        for block; do printf '%b' "$(fold -w 2 <<<"$block" | sed 's/^/\\x/' | tr -d '\n')"; done
    } >"$file"
}

# ---- judge

# Judges by a deck of these cards, and compares the status, the line and what is said: NAME STATUS LINE SAID OURS THEIRS CARD..
judged() {
    local name=$1 status=$2 line=$3 words=$4 ours=$5 theirs=$6
    shift 6
    printf '%s\n' "$@" '// END' >judged.deck
    call "$name" "$status" "$line" judge judged.deck "$ours" "$theirs"
    check "$name: said" "$words" "$(cat said)"
}
