# shellcheck shell=bash
# To be sourced: which files are alike, by their checksums, and the command compare.

# The checksums of files, in their order, into the array sums; of one that cannot be read a dash. No file is called by a dash alone.
checksums() {
    local entry i found=()
    declare -A sum_of=()
    sums=()
    [[ $# -gt 0 ]] || return 0
    mapfile -d '' -t found < <(printf '%s\0' "$@" | xargs -0 sha256sum -z -- 2>/dev/null)
    for entry in "${found[@]}"; do
        sum_of[=${entry:66}]=${entry:0:64}
    done
    for ((i = 1; i <= $#; i++)); do
        sums+=("${sum_of[=${!i}]:--}")
    done
}

# Groups the members by their output: sets differ to how many outputs differ from one another, and the array groups to a text for each output that several have, the members' numbers,
# in the order of their first ones. Asks for the array of.
group() {
    local i output
    declare -A had_by=() order=()
    groups=() differ=0
    for ((i = 0; i < ${#of[@]}; i++)); do
        output=${of[i]}
        if [[ -z ${had_by[$output]-} ]]; then
            order[$differ]=$output
            differ=$((differ + 1))
        fi
        had_by[$output]+=" $i"
    done
    for ((i = 0; i < differ; i++)); do
        output=${order[$i]}
        [[ ${had_by[$output]} != ' '*' '* ]] || groups+=("${had_by[$output]}")
    done
}

# Says the names of members, each on a line.
say_names() {
    local i shown
    for i; do
        show "${names[i]}"
        say "    $shown"
    done
}

compare() {
    local of=() names=() differ groups=() sums=() numbers i
    take 'strict json' "$@"
    called 'reels differ'
    [[ ${#words[@]} -ge 1 ]] || wrong_usage
    if [[ ${#words[@]} -eq 1 && -d ${words[0]} ]]; then
        compare_folder "${words[0]}"
        return
    fi
    readable "${words[@]}"
    names=("${words[@]}")
    for i in "${names[@]}"; do
        [[ $i != - ]] || unusable - 'standard input cannot be compared; name files'
    done
    checksums "${names[@]}"
    of=("${sums[@]}")
    for ((i = 0; i < ${#of[@]}; i++)); do
        [[ ${of[i]} != - ]] || unusable "${names[i]}" 'cannot be read'
    done
    group
    pass "${#names[@]} $differ"
    say "reels that differ from one another: $differ of ${#names[@]}"
    for numbers in "${groups[@]}"; do
        # shellcheck disable=SC2086 # numbers, a word each
        set -- $numbers
        say "$# reels are alike:"
        say_names "$@"
    done
    [[ -z $strict || ${#groups[@]} -eq 0 ]] || return 3
}
