# shellcheck shell=bash
# To be sourced: how a program runs. Asks for tools, the folder of the loader and the C library that programs run under.

# Becomes a program, with its arguments, under that loader: the C library that it was linked against goes with it, also where the system has another. It is told its own name
# alone, since the folder's need not be a text.
become() {
    exec "$tools/lib/ld-linux-x86-64.so.2" --argv0 "${1##*/}" --library-path "$tools/lib" "$@"
}

# Runs a program, with its arguments.
on_this_machine() {
    (become "$@")
}
