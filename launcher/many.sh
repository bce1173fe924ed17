# shellcheck shell=bash
# To be sourced: the commands for many reels: convert-all and judge-all.

# The count as it goes, for who watches, over what stood there.
count() {
    [[ ! -t 2 || -n $quiet ]] || printf '\r\033[K%s' "${1-}" >&2
}

# The worse of two statuses: 2, then 1, then 3, then 0.
worse() {
    local status
    for status in 2 1 3; do
        case " $1 $2 " in *" $status "*) return "$status" ;; esac
    done
}

# The status of a call of many, with that of one more.
also() {
    worse "$worst" "$1"
    worst=$?
}

# A deck that is refused is not tried on any reel: one line, its name behind the numbers.
refused_deck() {
    pass "$1" deck "$2"
    exit 1
}

# ---- convert-all

# An empty line in a list names nothing.
drop_empty() {
    local i
    for i in "${!reels[@]}"; do
        [[ -n ${reels[i]} ]] || unset 'reels[i]'
    done
    reels=("${reels[@]}")
}

# The reels: as arguments, or by --names from a file, one to a line or, by --null, each ended by NUL.
take_reels() {
    local name
    if [[ -z $names_from ]]; then
        [[ -z $null ]] || wrong_usage
        reels=("$@")
    else
        [[ $# -eq 0 ]] || wrong_usage
        readable "$names_from"
        named "$names_from"
        if [[ -n $null ]]; then mapfile -d '' -t reels <"$name"; else mapfile -t reels <"$name"; fi
        drop_empty
    fi
    [[ ${#reels[@]} -gt 0 ]] || { printf '%s\n' 'no reel is named' >&2; exit 2; }
}

# Each reel has a name of its own, or one output would be written over another; and none that of the manifest. In tables of names each has = in front: the shell takes @ and * for all
# of a table.
names_differ() {
    local reel own shown
    show "$folder/MANIFEST"
    for reel in "${reels[@]}"; do
        own=${reel##*/}
        [[ -n $own ]] || unusable "$reel" 'is no name of a reel'
        [[ $own != - ]] || unusable - 'a reel from standard input has no name; use convert'
        [[ $own != MANIFEST ]] || unusable "$reel" "an output of this name would take the place of $shown"
        [[ -z ${member_of[=$own]-} ]] || unusable "$own" 'two of the reels have this name, and their outputs would too'
        member_of[=$own]=$reel
    done
}

# Those that can be converted go into the list, each with the mode that its output has already.
list_reels() {
    local entry reel own of
    declare -A modes=()
    while IFS= read -r -d '' entry; do
        modes[=${entry#* }]=${entry%% *}
    done < <(find "$folder/" -maxdepth 1 -type f -printf '%m %f\0')
    for reel in "${reels[@]}"; do
        own=${reel##*/}
        of=$reel
        if can_read "$reel" && ! can_write "$folder/$own" "${modes[=$own]:-0}" "$given_deck" "$reel"; then
            of=$folder/$own
        fi
        if [[ -z $why ]]; then
            list+=("${modes[=$own]-} $reel")
        else
            complain "$of" "$why"
            also 2
        fi
    done
}

# Starts a program for each part of the list, as many as are asked for, and no more than there are reels.
start_parts() {
    local size i asked=() into
    stand_in_list
    size=$(((${#list[@]} + jobs - 1) / jobs))
    count_parts=0
    for ((i = 0; i < ${#list[@]}; i += size)); do
        printf '%s\0' "${asked[@]:i:size}" >"$work/names.$count_parts"
        start convert_reels --modes "$deck" "$into" <"$work/names.$count_parts" >"$work/lines.$count_parts" 2>"$work/words.$count_parts"
        count_parts=$((count_parts + 1))
    done
}

# The count goes on while they run, where someone watches.
watch_parts() {
    local pid
    if [[ -t 2 && -z $quiet ]]; then
        while kill -0 "${running[@]}" 2>/dev/null; do
            count "$(cat "$work"/lines.* | tr -dc '\0' | wc -c) of ${#list[@]} "
            sleep 0.2
        done
    fi
    for pid in "${running[@]}"; do wait "$pid"; done
    running=()
    count
}

# A line of a part apart: five numbers, and a name, of which no pattern is asked, since its bytes need not be characters. Sets numbers and name; fails where it is none.
apart() {
    name=${1#* * * * * }
    numbers=${1%" $name"}
    [[ $numbers =~ ^[0-9]+( [0-9]+){4}$ ]]
}

# The lines of the parts, in the order of the names: what they say of each reel, and of all.
read_parts() {
    local i line numbers name
    for ((i = 0; i < count_parts; i++)); do
        mapfile -d '' -t -O "${#lines[@]}" lines <"$work/lines.$i"
    done
    for line in "${lines[@]}"; do
        status_of "$line"
        also $?
        if apart "$line"; then numbers_of[=$name]=$numbers; fi
    done
    [[ ${#lines[@]} -eq ${#list[@]} ]] || also 2
}

# Passes lines and words of the parts on. What is said of the deck was said.
tell_parts() {
    local i line numbers name
    for ((i = 0; i < count_parts; i++)); do
        if [[ -n $quiet ]]; then
            of_unused
        else
            grep -avxF -f "$work/of_deck" "$work/words.$i" >&2
        fi
    done
    for line in "${lines[@]}"; do
        if apart "$line"; then pass "$numbers" reel "$name"; fi
    done
}

# Of the words of part i those of reels that have no line, since a file could not be used.
of_unused() {
    local entry name line shown unused=()
    for entry in "${list[@]}"; do
        name=${entry#* }
        [[ -z ${numbers_of[=$name]-} ]] || continue
        show "$name"
        unused+=("$shown")
        show "$folder/${name##*/}"
        unused+=("$shown")
    done
    while IFS= read -r line; do
        for name in "${unused[@]}"; do
            [[ $line != "$name: "* ]] || { printf '%s\n' "$line" >&2; break; }
        done
    done <"$work/words.$i"
}

# The members as they became: inputs and outputs of those that were converted, and an entry for each that has a line.
gather_members() {
    local reel refused=() sums shown i
    for reel in "${reels[@]}"; do
        case ${numbers_of[=$reel]-} in
            '') ;;
            '0 '*) paths+=("$reel") names+=("$reel") written+=("$folder/${reel##*/}") ;;
            *) refused+=("$reel") ;;
        esac
    done
    checksums "${written[@]}"
    outputs=("${sums[@]}")
    checksums "${paths[@]}" "${refused[@]}"
    inputs=("${sums[@]:0:${#paths[@]}}")
    for ((i = 0; i < ${#sums[@]}; i++)); do
        if [[ $i -lt ${#paths[@]} ]]; then reel=${paths[i]}; else reel=${refused[i - ${#paths[@]}]}; fi
        styled "$reel" on_line
        entries+=("$made_by $deck_sum ${sums[i]} ${outputs[i]:--} ${numbers_of[=$reel]} $shown")
    done
    drop_unread
}

# An output that cannot be read, as one that keeps such a mode, is not compared.
drop_unread() {
    local i
    for i in "${!outputs[@]}"; do
        [[ ${outputs[i]} == - ]] || continue
        complain "${written[i]}" 'was written, and cannot be read to be compared'
        also 2
        unset 'outputs[i]' 'inputs[i]' 'paths[i]' 'names[i]'
    done
    outputs=("${outputs[@]}") inputs=("${inputs[@]}") paths=("${paths[@]}") names=("${names[@]}")
}

convert_all() {
    local given_deck folder reels=() list=() lines=() paths=() names=() written=() inputs=() outputs=() entries=() sums deck plan of_deck
    local deck_sum shown_deck made_by differ became_alike count_parts worst=0
    declare -A member_of=() numbers_of=()
    take 'strict force no-clobber jobs names null json' "$@"
    called 'refusal place length records blocks'
    [[ ${#words[@]} -ge 2 ]] || wrong_usage
    given_deck=${words[0]} folder=${words[1]}
    [[ $folder != -* ]] || folder=./$folder
    take_reels "${words[@]:2}"
    readable "$given_deck"
    [[ $given_deck != - || $names_from != - ]] || unusable - 'standard input is named twice, and can be read once'
    names_differ
    had plan_deck convert_reels
    planned "$given_deck"
    say_of_deck "$given_deck"
    ! is_refused || refused_deck "${plan% * *} 0 0 0" "$given_deck"
    [[ -z $strict ]] || ! is_losing || { say 'nothing was converted: by --strict the plan has to keep'; exit 3; }
    fill_folder
}

# Converts what is listed into the folder. The manifest is there before a line is printed, since who reads the lines may stop.
fill_folder() {
    local shown odd
    checksums "$deck"
    deck_sum=${sums[0]}
    not_of_another
    mkdir -p -- "$folder" || exit 2
    places=("$folder")
    maker
    styled "$given_deck" on_line
    shown_deck=$shown
    with_manifest claim
    list_reels
    start_parts
    watch_parts
    [[ -z $odd ]] || true_parts
    read_parts
    gather_members
    with_manifest enter
    tell_parts
    report
    [[ -z $strict || -z $became_alike ]] || also 3
    return "$worst"
}

# ---- judge-all

# One of many, into the variable line: what is said of it goes to standard error behind its name. Where it has no line, a file could not be used.
judge_one() {
    local shown
    line=$( (readable "$2" "$3" && run judge_reel "$deck" "$2" "$3") 2>"$work/words")
    show "$1"
    [[ -n $line && -n $quiet ]] || behind_name "$shown" <"$work/words" >&2
}

# Each line behind the name, but for those that were said of the deck, and for a yes, of which the numbers say all.
behind_name() {
    local line
    while IFS= read -r line; do
        case $'\n'$of_deck$'\n' in *$'\n'"$line"$'\n'*) continue ;; esac
        case $line in 'theirs is a true conversion of ours, of '*) continue ;; esac
        count
        case $line in "$1: "*) ;; *) line="$1: $line" ;; esac
        printf '%s\n' "$line"
    done
}

# Whether a deck judges at all: if it does, two files that are no reels are refused by 11. One that is longer than the copy is refused as its plan is, without a column.
judges() {
    local line
    if [[ $(wc -c <"$deck") -eq 65536 ]]; then
        say_of_deck "$1"
        refused_deck "${plan% * *} 0 0 0" "$1"
    fi
    line=$(run judge_reel "$deck" /dev/null /dev/null 2>"$work/of_deck")
    [[ $line == '11 '* ]] || { of_deck=$(<"$work/of_deck"); say_of_deck "$1"; refused_deck "$line" "$1"; }
}

folder() {
    [[ -d $1 ]] || unusable "$1" 'is no folder'
    if [[ ! -r $1 || ! -x $1 ]]; then
        unusable "$1" 'may not be read'
    fi
}

# Whether something has the name, also a link to what is missing.
stands() {
    [[ -e $1 || -h $1 ]]
}

# Each name that stands in the first folder and not in the second goes into the array lone, with what is said of it.
find_lone() {
    local one own shown
    for one in "$1"/*; do
        if stands "$one" && ! stands "$2/${one##*/}" && [[ ${one##*/} != MANIFEST ]]; then
            show "${one##*/}"
            own=$shown
            show "$1"
            lone+=("$own: stands in $shown alone")
        fi
    done
}

judge_all() {
    local LC_ALL=C ours theirs one shown lone=() names=() line worst=0 tried=0 deck plan of_deck
    take 'json' "$@"
    called 'refusal place column yes number'
    [[ ${#words[@]} -eq 3 ]] || wrong_usage
    set -- "${words[@]}"
    ours=$2 theirs=$3
    readable "$1"
    folder "$ours"
    folder "$theirs"
    for one in "$ours"/*; do
        ! stands "$one" || ! stands "$theirs/${one##*/}" || [[ ${one##*/} == MANIFEST ]] || names+=("${one##*/}")
    done
    find_lone "$ours" "$theirs"
    find_lone "$theirs" "$ours"
    show "$theirs"
    [[ ${#names[@]} -gt 0 || ${#lone[@]} -gt 0 ]] || unusable "$ours" "there is no file in it, and none in $shown"
    had plan_deck judge_reel
    planned "$1"
    judges "$1"
    say_of_deck "$1"
    for one in "${names[@]}"; do
        count "$tried of ${#names[@]} "
        judge_one "$one" "$ours/$one" "$theirs/$one"
        verdict_of "$line"
        also $?
        count
        pass "$line" name "$one"
        tried=$((tried + 1))
    done
    [[ ${#lone[@]} -eq 0 ]] || { say "${lone[@]}"; also 3; }
    return "$worst"
}
