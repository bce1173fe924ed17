# shellcheck shell=bash
# To be sourced: the help, of all commands and of each.

help() {
    cat <<'TEXT'
usage: bhexodana COMMAND ..          'bhexodana COMMAND --help' says more of each

  plan DECK                          does the deck's plan keep all records apart?
  twins DECK                         show two records that a deck which loses makes one
  check DECK REEL                    all that a conversion would say; nothing is written
  convert DECK REEL OUT              convert one reel into the file OUT
  convert-all DECK OUTDIR REEL..     convert many reels, each into OUTDIR under its own name
  compare REEL.. | OUTDIR            which of these reels, or of the members in this folder, are
                                     alike?
  judge DECK OURS THEIRS             is THEIRS, a reel from elsewhere, a true conversion of the
                                     reel OURS?
  judge-all DECK OURDIR THEIRDIR     judge each reel of THEIRDIR by that of OURDIR which has its
                                     name
  build                              build all programs and the library now
  install PREFIX                     put programs, library, header, module, manual and
                                     completion there
  help [COMMAND], --help             this, or the help of a command
  --version                          which version this is

A DECK or a REEL that is called - is standard input. Behind -- stand names alone. Over decks and
reels a command prints numbers, a line for each, and says in words on standard error what they
mean. The first number is the refusal, 0 for none. In names a control character is shown as \n,
\t or \x1b, and a backslash is doubled.

  --json         a line is an object: the same numbers by name
  -q, --quiet    no words, but of a file that cannot be used; the numbers and the status say the
                 rest

Ends with 0 if finished, 1 if refused, 2 for wrong usage or a file that cannot be used, and with
3 for a no of judge, or by --strict; where several hold of many reels, the first of 2, 1, 3
counts. Interrupted: 129, 130 or 143, and nothing half written is left.
TEXT
}

help_plan() {
    cat <<'TEXT'
usage: bhexodana plan [--strict] [--table] [--picture FILE] DECK

Prints refusal, place, keeping (1 or 0) and lost: the lowest half byte that is lost, counted
from 0, two to a byte; for the tail, twice the bytes before it; 0 where the plan keeps. It keeps
exactly if no two different records that it converts give the same output record.

  --table           then the plan: each field, its card, its positions and what it does; every
                    run of half bytes that is lost, and why; the output's blanks
  --picture FILE    writes a picture of it too, in SVG: the input record above, the output
                    record below, fields as bands, lost half bytes red
  --strict          ends with 3 where the plan loses
  --force           FILE is replaced also if it is read-only; --no-clobber: not at all
  --json, -q        as for all commands; with --table each line of it is an object

Ends with 0, 1 if the deck is refused, 2 if a file cannot be used, 3 by --strict.
TEXT
}

help_twins() {
    cat <<'TEXT'
usage: bhexodana twins [--records FILE] [--reel FILE] DECK

Shows two records that a deck which loses makes one, and why. Prints refusal, place, column,
reason (1 never read, 2 dropped by a short field, 3 covered later, 4 tail) and length, that of
both records. A plan that keeps is refused by 16.

  --records FILE    writes the two records into FILE too, data only, one behind the other
  --reel FILE       writes a reel of them into FILE too, a block for each, to convert with the
                    same deck (before record R: copies of the first)
  --force           a FILE is replaced also if it is read-only; --no-clobber: not at all
  --json, -q        as for all commands

Ends with 0, 1 if the deck is refused, 2 if a file cannot be used.
TEXT
}

help_check() {
    cat <<'TEXT'
usage: bhexodana check [--strict] DECK REEL

Says all that a conversion would say, and writes nothing. Prints refusal, place, length, records
and blocks, of the reel that would be written.

  --strict      ends with 3 where the plan loses, and reads no reel
  --json, -q    as for all commands

Ends with 0, 1 if the deck or the reel is refused, 2 if a file cannot be used, 3 by --strict.
TEXT
}

help_convert() {
    cat <<'TEXT'
usage: bhexodana convert [--strict] [--force | --no-clobber] DECK REEL OUT

Converts one reel into the file OUT. Prints refusal, place, length, records and blocks, of the
reel that was written. OUT is written beside its place and then renamed; where the call is
refused it stays as it was. A file that is there keeps its mode.

  --strict        ends with 3 where the plan loses, and converts nothing
  --force         OUT is replaced also if it is read-only
  --no-clobber    OUT is not replaced
  --json, -q      as for all commands

Ends with 0, 1 if the deck or the reel is refused, 2 if a file cannot be used, 3 by --strict.
TEXT
}

help_convert_all() {
    cat <<'TEXT'
usage: bhexodana convert-all [--strict] [--force | --no-clobber] [-j N] DECK OUTDIR REEL..
       bhexodana convert-all .. --names FILE [--null] DECK OUTDIR

Converts many reels, each into OUTDIR under its own name. Prints for each refusal, place,
length, records, blocks and the reel's name, in the order of the names; a deck that is refused
has the only line, with its own name. Then it says how many outputs differ from one another, and
which members became alike though their inputs differ, and by what. OUTDIR/MANIFEST has the
checksums of deck, input and output of each.

  --strict        ends with 3 where the plan loses, and converts nothing; and where members
                  became alike
  --force         replaces read-only files, and fills a folder whose MANIFEST names another deck
  --no-clobber    replaces no file
  -j N            runs N programs at once; without it as many as there are processors
  --names FILE    takes the reels' names from FILE, or from standard input if that is -, one to
                  a line; --null: each ended by NUL
  --json, -q      as for all commands

Ends with 0; or with the first of 2, 1, 3 that holds: a file cannot be used, one is refused, by
--strict.
TEXT
}

help_compare() {
    cat <<'TEXT'
usage: bhexodana compare [--strict] REEL..
       bhexodana compare [--strict] OUTDIR

Prints how many reels there are, and how many of them differ from one another; says which are
alike. Of a folder that convert-all filled it says by the MANIFEST which members became alike
though their inputs differ, and which files are no longer what was written.

  --strict      ends with 3 where reels are alike, or members became so
  --json, -q    as for all commands

Ends with 0, 2 if a file cannot be used or is not what was written, 3 by --strict.
TEXT
}

help_judge() {
    cat <<'TEXT'
usage: bhexodana judge DECK OURS THEIRS

Is THEIRS, a reel from elsewhere, a true conversion of the reel OURS, by a deck of TR or TRF?
Prints refusal, place, column, yes (1 or 0) and number: of the first record that disagrees or
lacks a partner, counted from 1 in the output, or 0.

  --json, -q    as for all commands

Ends with 0 for yes, 3 for no, 1 if something is refused, 2 if a file cannot be used.
TEXT
}

help_judge_all() {
    cat <<'TEXT'
usage: bhexodana judge-all DECK OURDIR THEIRDIR

Judges each reel of THEIRDIR by that of OURDIR which has its name. Prints for each refusal,
place, column, yes, number and the name; names with a dot in front, and MANIFEST, are left out.
A name that stands in one folder alone is said, and counts as a no.

  --json, -q    as for all commands

Ends with 0 if all are yes, and else with the first of 2, 1, 3 that holds: a file cannot be
used, one is refused, one is no.
TEXT
}

help_build() {
    cat <<'TEXT'
usage: bhexodana build

Builds all programs and the library now, where they are missing or older than the crates; all
that they stand on is proved first, which takes some minutes. Any other command builds what it
needs by itself.

  -q    no words, but of what goes wrong

Ends with 0, or 2 if something cannot be built.
TEXT
}

help_install() {
    cat <<'TEXT'
usage: bhexodana install PREFIX

Puts programs, library, header, module, manual and the completion for bash under PREFIX: bin,
lib, include and share. What is installed needs neither the checkout nor Rattle's kit.

  -q    no words, but of what goes wrong

Ends with 0, or 2 if something cannot be built or written.
TEXT
}

# The help of a command, or of all where it is none.
help_of() {
    case $1 in
        plan | twins | check | convert | convert-all | compare | judge | judge-all | build | install) "help_${1/-/_}" ;;
        *) help ;;
    esac
}

# What is wrong, where it can be said in a line, stands behind the help, where people look first.
wrong_usage() {
    help_of "${command-}" >&2
    if [[ -n ${1-} ]]; then
        printf '\n' >&2
        [[ $# -eq 1 ]] || { complain "$@"; exit 2; }
        printf '%s\n' "$1" >&2
    fi
    exit 2
}
