# shellcheck shell=bash
# To be sourced: OUTDIR/MANIFEST, which says of each member by which deck, from which input and by which version its output was made; so that a folder filled by two decks is seen.
# Lines that begin with # name the decks and the columns.

# What made the outputs: the version, and the first digits of the checksum of the program.
maker() {
    local sums=() program
    program_of convert_reels
    checksums "$program"
    made_by=$version-${sums[0]:0:12}
}

# The own name, behind the last slash, of one that is shown on a line, into the variable own.
own_name() {
    printf -v own %b "$1"
    own=${own##*/}
}

# Runs a call while no other changes the folder's manifest.
with_manifest() {
    local lock
    { exec {lock}>>"$folder/.MANIFEST.lock"; } 2>/dev/null || unusable "$folder" 'may not be written'
    flock "$lock"
    "$@"
    exec {lock}>&-
}

# Puts standard input in the manifest's place.
put_manifest() {
    local part
    printf -v part '%s/.MANIFEST.%d-%04x.part' "$folder" $$ "$RANDOM"
    if ! { cat >"$part"; } 2>/dev/null || ! mv -f -- "$part" "$folder/MANIFEST"; then
        rm -f -- "$part"
        unusable "$folder/MANIFEST" 'cannot be written'
    fi
}

# Whether the folder's manifest names another deck than this.
names_another() {
    [[ -e $folder/MANIFEST ]] && grep -a '^# deck ' -- "$folder/MANIFEST" | grep -aqv "^# deck $deck_sum "
}

not_of_another() {
    if [[ -z $force ]] && names_another; then
        unusable "$folder" 'its MANIFEST names another deck, so that it would be filled by two; take another folder, or --force'
    fi
}

# The folder is for this deck from here on, and its manifest names it.
claim() {
    not_of_another
    if [[ ! -e $folder/MANIFEST ]]; then
        printf '%s\n' '# version deck input output refusal place length records blocks reel' "# deck $deck_sum $shown_deck" | put_manifest
    elif ! grep -aq "^# deck $deck_sum " -- "$folder/MANIFEST"; then
        printf '%s\n' "# deck $deck_sum $shown_deck" | cat -- "$folder/MANIFEST" - | put_manifest
    fi
}

# The lines for members that are not among these, and those of these in their place. Asks for the array entries, and member_of, which has their outputs' names.
enter() {
    {
        if [[ -e $folder/MANIFEST ]]; then
            others <"$folder/MANIFEST"
        fi
        [[ ${#entries[@]} -eq 0 ]] || printf '%s\n' "${entries[@]}"
    } >"$work/manifest"
    put_manifest <"$work/manifest"
}

others() {
    local line reel own
    while IFS= read -r line; do
        case $line in
            '#'*) printf '%s\n' "$line" ;;
            *)
                IFS=' ' read -r _ _ _ _ _ _ _ _ _ reel <<<"$line"
                own_name "$reel"
                [[ -n ${member_of[=$own]-} ]] || printf '%s\n' "$line"
                ;;
        esac
    done
}

# ---- compare OUTDIR

# What the manifest says of the outputs is held against the files, and the members are compared.
compare_folder() {
    local folder=${1%/} names=() paths=() inputs=() outputs=() sums=() reel own refusal input output i apart='' differ became_alike
    [[ -e $folder/MANIFEST ]] || unusable "$folder" 'has no MANIFEST, which convert-all writes; name the reels themselves'
    while IFS=' ' read -r _ _ input output refusal _ _ _ _ reel; do
        [[ $refusal == 0 ]] || continue
        own_name "$reel"
        names+=("$folder/$own") inputs+=("$input") outputs+=("$output")
    done < <(grep -av '^#' -- "$folder/MANIFEST")
    checksums "${names[@]}"
    for ((i = 0; i < ${#names[@]}; i++)); do
        [[ ${sums[i]} == "${outputs[i]}" ]] || { complain "${names[i]}" 'is not what MANIFEST says was written'; apart=yes; }
    done
    report
    pass "${#names[@]} $differ"
    [[ -z $apart ]] || return 2
    [[ -z $strict || -z $became_alike ]] || return 3
}
