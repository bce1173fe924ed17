# shellcheck shell=bash
# To be sourced behind kit.sh: how the static library for callers in C and Fortran is built, target/staticlib/libbhexodana.a. Its functions are those of the crate
# bhexodana_c, by which Rattle names what it writes.

# Where it stands, into the variable library: library_in ROOT.
library_in() {
    library=$1/target/staticlib/libbhexodana.a
}

# Builds it where it is missing or older than the crates: need_library ROOT.
need_library() {
    local library
    library_in "$1"
    is_fresh "$1" "$library" || alone "$1" build_library "$1"
}

build_library() {
    local library made=$1/crates/bhexodana_c/out/libbhexodana_c.a
    library_in "$1"
    if is_fresh "$1" "$library"; then
        return
    fi
    telling 'building the static library'
    rm -f "$made"
    over_libraries "$1" || (cd "$1/crates/bhexodana_c" && "$rt" lib) 2>&1 | telling_of || :
    if ! mkdir -p "${library%/*}" || ! cp "$made" "$library.part" 2>/dev/null || ! mv -f "$library.part" "$library"; then
        printf 'the library could not be built: (cd %q && rt lib) says why\n' "$1/crates/bhexodana_c" >&2
        return 2
    fi
}

# The libraries that the crate names, of the repository or of the kit, and where the others are: into the array libraries, as words for the compiler.
libraries_of() {
    local names name folder
    read -ra names < <(sed -n 's/#.*//; s/^bhexodana_c [^:]*: *//p' "$1/crates.txt")
    libraries=(-L "dependency=$kit/rlibs")
    for name in std "${names[@]}"; do
        folder=$1/crates/$name/out/rlib
        [ -d "$1/crates/$name" ] || folder=$kit/rlibs
        libraries+=(--extern "$name=$folder/$name.rlib")
    done
    for folder in "$1"/crates/*/out/rlib; do
        libraries+=(-L "dependency=$folder")
    done
}

# Proves the crate over the libraries as they stand, and compiles all: compile_library ROOT TOOLCHAIN ARCHIVE. These are the words that `rt lib` gives the compiler.
compile_library() {
    local libraries
    libraries_of "$1"
    mkdir -p "$1/crates/bhexodana_c/out"
    (cd "$1/crates/bhexodana_c" && "$kit/bin/rattle" build --crate-name bhexodana_c src/lib.rt "${libraries[@]}" \
        --antt-project "$kit/rattle/logic/antt-project.json" --logic-built "$kit/logic_built" --links bhexodana_c= \
        --crate-type staticlib --toolchain "$2" --backend llvm -o "$3")
}

# The same where `rt ci` left the libraries, proved from nothing; `rt lib` would prove each of them once more. Fails where one is missing or older than the crates, or was built
# over others than these.
over_libraries() {
    local rlib
    for rlib in "$1"/crates/*/out/rlib/*.rlib; do
        is_fresh "$1" "$rlib" || return 1
    done
    compile_library "$1" "$tools" out/libbhexodana_c.a >/dev/null 2>&1
}
