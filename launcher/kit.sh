# shellcheck shell=bash
# To be sourced: where Rattle's kit stands, found from its command rt, and how programs are built. Sets rt, kit and tools.
rt=$(command -v rt) || { printf '%s\n' "rt, the command of Rattle's kit, is not on the PATH" >&2; exit 2; }
kit=$(cd "$(dirname "$(readlink -f "$rt")")/.." && pwd -P)
tools=$kit/toolchain
# shellcheck source=launcher/machine.sh
. "${BASH_SOURCE[0]%/*}/machine.sh"

# Where a program of the repository stands once it is built, into the variable program: program_in ROOT PROGRAM.
program_in() {
    program=$1/crates/$2/out/$2
}

# Says how a build goes on, where words are wanted; or of all that a build says, which crate is being proved, and what goes wrong.
telling() {
    [ -n "${quiet-}" ] || printf '%s\n' "$1" >&2
}

# It ends with 0 where rt comes to run a program, which it does once that is proved and built.
telling_of() {
    local line status=1
    while IFS= read -r line; do
        case $line in
            'rt: running '*) status=0 ;;
            'rt: chose --jobs '*) telling "proving ${line##* }" ;;
            'rt: nothing has changed '* | 'rt: '*': begins with what a check kept in '*) ;;
            'rt: '*) telling "$line" ;;
        esac
    done
    return $status
}

# Whether a file is there and no older than what is proved: is_fresh ROOT FILE. What was made stands among the crates too, in out/.
is_fresh() {
    [ -e "$2" ] && [ ! "$1/crates.txt" -nt "$2" ] && [ -z "$(find "$1"/crates/*/{src,specs,proofs} -newer "$2" -print -quit 2>/dev/null)" ]
}

# Whether a program of the repository is built: is_built ROOT PROGRAM. One that is older than the crates may have been proved again since, and is marked.
is_built() {
    local program
    program_in "$@"
    [ -x "$program" ] && { is_fresh "$1" "$1/target/made-$2" || is_fresh "$1" "$program"; }
}

# Proves programs and all that they stand on, and says what is being proved: prove ROOT PROGRAM.. rt has no word that builds a program and does not run it; without arguments
# and input each ends at once.
prove() {
    local root=$1 name
    shift
    telling "building $*: first all that this stands on is proved, which takes some minutes"
    for name; do
        (cd "$root/crates/$name" && "$rt" run </dev/null 2>&1 >/dev/null) | telling_of || {
            printf '%s could not be built: (cd %q && rt run) says why\n' "$name" "$root/crates/$name" >&2
            return 2
        }
        touch "$root/target/made-$name"
    done
}

# Runs a call while no other build goes on in the repository: alone ROOT CALL... A job array may start on a fresh clone.
alone() {
    if ! mkdir -p "$1/target" 2>/dev/null || [ ! -w "$1/target" ]; then
        printf '%q: may not be written, and something has to be built there; its owner can, by ./bhexodana build\n' "$1/target" >&2
        return 2
    fi
    (
        flock -n 8 || { telling 'another build is under way here; this one waits for it'; flock 8; }
        shift
        "$@"
    ) 8>>"$1/target/lock"
}

# Those of these programs that are missing or older than the crates go into the array missing: find_missing ROOT PROGRAM..
find_missing() {
    local root=$1 name
    shift
    missing=()
    for name; do is_built "$root" "$name" || missing+=("$name"); done
    [ ${#missing[@]} -gt 0 ]
}

# Builds them: build ROOT PROGRAM.. Who waited for another build finds them built.
build() {
    local missing
    ! find_missing "$@" || alone "$1" build_now "$@"
}

build_now() {
    ! find_missing "$@" || prove "$1" "${missing[@]}"
}
