# shellcheck shell=bash
# To be sourced by what measures: what the kit lowers the crates to, and how C and what was lowered are compiled. Sets root, by launcher/kit.sh rt, kit and tools, and by
# launcher/library.sh library. The kit's older releases had a compiler that lowered functions for any processor and proved nothing, which is gone; what is taken here is
# the module that the kit hands to its clang when it builds the static library, and that is lowered for x86-64.
root=$(cd "$(dirname "${BASH_SOURCE[0]}")/.." && pwd -P)
# shellcheck source=launcher/kit.sh
. "$root/launcher/kit.sh"
# shellcheck source=launcher/library.sh
. "$root/launcher/library.sh"
library_in "$root"

# A toolchain in a folder, whose compiler keeps a copy of the module there. The environment does not reach it, so its paths are written into it.
keeping_tools() {
    mkdir -p "$1/tools/bin"
    ln -s "$tools/lib" "$1/tools/lib"
    ln -s "$tools"/bin/* "$1/tools/bin"
    rm "$1/tools/bin/clang"
    printf '#!/bin/sh\ncase "$*" in *" -O3"*) cp module.bc %q ;; esac\nexec %q "$@"\n' "$1/module.bc" "$tools/bin/clang" >"$1/tools/bin/clang"
    chmod +x "$1/tools/bin/clang"
}

# Lowers all functions for callers, with all that they reach: lower FOLDER. The libraries below them are built first where they are not as the crates stand. The text,
# lowered.ll, names no processor.
lower() {
    keeping_tools "$1"
    {
        (cd "$root/crates/bhexodana_c" && "$rt" lib) && compile_library "$root" "$1/tools" "$1/lowered.a"
    } >"$1/said" 2>&1 || { cat "$1/said" >&2; exit 2; }
    unoptimised -S "$1/module.bc" -o "$1/kept.ll"
    sed -e '/^target /d' -e 's/ "target-cpu"="[^"]*"//' "$1/kept.ll" >"$1/lowered.ll"
}

# A module in another form, its functions as they are.
unoptimised() {
    "$tools/bin/clang" -O0 -Xclang -disable-llvm-passes -emit-llvm -Wno-override-module -x ir "$@"
}

# Compiles for a processor, at the level that `rt lib` uses: compiled PROCESSOR WORDS.. No register is kept for the frame: on x86-64 that goes with the level, and on Arm C would
# keep one.
compiled() {
    "$tools/bin/clang" --target="$1-unknown-linux-gnu" -O3 -fPIC -fomit-frame-pointer "${@:2}"
}

# Compiles a file of this folder in C into an object in another: compiled_c PROCESSOR GCC FOLDER NAME WORDS..
# The kit's clang has no headers of its own: it takes those that the distribution's compiler looks at.
compiled_c() {
    local headers=() folder
    while read -r folder; do
        headers+=(-isystem "$folder")
    done < <(LC_ALL=C "$2" -E -v -x c /dev/null 2>&1 | sed -n '/^#include </,/^End of/s/^ //p')
    compiled "$1" -std=c11 -D_POSIX_C_SOURCE=200809L -Wall -Wextra -Werror "${headers[@]}" -I"$root/include" "${@:5}" -c "$root/bench/$4.c" -o "$3/$4.o"
}

# Links the program that measures, FOLDER/measure, from the plain converter and ours: measuring PROCESSOR GCC FOLDER OURS WORDS..
# What measures stands behind what is measured, so that it does not move it.
measuring() {
    local name
    for name in plain bench; do
        compiled_c "$1" "$2" "$3" "$name" "${@:5}"
    done
    "$2" -o "$3/measure" -Wl,--whole-archive "$4" -Wl,--no-whole-archive "$3/plain.o" "$3/bench.o"
}
