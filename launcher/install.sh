# shellcheck shell=bash
# To be sourced: the commands build and install.

programs=(plan_deck convert_reels show_twins judge_reel)

build_command() {
    take '' "$@"
    [[ ${#words[@]} -eq 0 ]] || wrong_usage
    build_all
}

# All programs, and the static library.
build_all() {
    [[ ! -d $parts/programs ]] || unusable "$here" 'is an installation, and has all that it needs'
    # shellcheck source=launcher/library.sh
    . "$parts/library.sh"
    had "${programs[@]}"
    need_library "$here" || exit 2
}

# Puts files into a folder of the installation, for all to read: MODE FOLDER FILE..
put() {
    if ! mkdir -p -- "$prefix/$2" || ! install -m "$1" -t "$prefix/$2" -- "${@:3}"; then
        unusable "$prefix/$2" 'cannot be written'
    fi
}

# Puts everything under PREFIX, so that it needs neither the checkout nor Rattle's kit: the loader and the C library that the programs run under are brought along.
install_all() {
    local prefix umask_before shown name program library
    take '' "$@"
    [[ ${#words[@]} -eq 1 && -n ${words[0]} ]] || wrong_usage
    build_all
    umask_before=$(umask)
    umask 022
    mkdir -p -- "${words[0]}" || exit 2
    prefix=$(cd -- "${words[0]}" && pwd -P && printf x) || exit 2
    prefix=${prefix%$'\n'x}
    put 755 bin "$here/bhexodana"
    for name in "${programs[@]}"; do
        program_of "$name"
        put 755 lib/bhexodana/programs "$program"
    done
    put 644 lib/bhexodana "$parts"/*.sh
    put 755 lib/bhexodana/lib "$tools"/lib/{ld-linux-x86-64.so.2,libc.so.6}
    library_in "$here"
    put 644 lib "$library"
    put 644 include "$here/include/bhexodana.h" "$here/fortran/bhexodana.f90"
    put 644 share/man/man1 "$here/docs/bhexodana.1"
    put 644 share/bash-completion/completions "$parts/bhexodana.bash"
    mv -f -- "$prefix/share/bash-completion/completions/bhexodana.bash" "$prefix/share/bash-completion/completions/bhexodana"
    put 644 share/doc/bhexodana "$here"/README.md "$here"/docs/{ENSEMBLES,RULES,TRUST}.md
    umask "$umask_before"
    show "$prefix/bin/bhexodana"
    say "installed: $shown"
}
