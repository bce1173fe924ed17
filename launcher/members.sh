# shellcheck shell=bash
# To be sourced: the report of an ensemble: how many of its outputs differ from one another, which members became alike though their inputs differ, and by what.

# What the U card of an accepted deck says: sets first to R, and same to a deck by which two reels of its input are judged to have the same records; of FU, whose outputs are its
# inputs, to nothing.
read_u_card() {
    local operand size
    read -r _ _ operand _ <"$deck"
    first=1 same=
    [[ ! ,$operand, =~ ,R([0-9]+), ]] || first=$((10#${BASH_REMATCH[1]}))
    [[ ,$operand, =~ ,A=\(([^\)]*)\), ]] || return 0
    size=${BASH_REMATCH[1]}
    if [[ $size =~ ^K=([0-9]+),D=([0-9]+)$ ]]; then
        size=$((10#${BASH_REMATCH[1]} + 10#${BASH_REMATCH[2]}))
        size=$size,$size
    fi
    case ,$operand, in
        *,FF,*) same="TR,FF,A=($size),B=($size)" ;;
        *,FV,*) same="TR,FV,A=(${size#*,}),B=(${size#*,})" ;;
        *,FS,*) same="TR,FS,A=($size),B=($size)" ;;
    esac
}

# By what the members of a group, whose inputs differ, became alike, into the variable by. The same records in other blocks are found by judging one input by the other; what is
# left under a plan that keeps are records that were not taken. Asks for inputs of which no two are alike.
find_cause() {
    local one=$1 other blocks='' records=''
    shift
    printf '// U %s\n// END\n' "$same" >"$work/same.deck"
    for other; do
        if [[ $(run judge_reel "$work/same.deck" "${paths[one]}" "${paths[other]}" 2>/dev/null) == '0 0 0 1 '* ]]; then
            blocks=yes
        else
            records=yes
        fi
        [[ -z $blocks || -z $records ]] || break
    done
    if [[ -n $blocks && -z $records ]]; then
        by=', by the blocking: their records are the same, in other blocks'
    elif is_losing; then
        by=', by what the plan loses'
        [[ $first -eq 1 ]] || by+=", or by records before record $first, which are not taken"
    else
        by=", by records that are not taken: they differ only before record $first, where R begins"
    fi
}

# Says what became of a group of members with one output. Inputs that are alike are no wonder.
say_group() {
    local i first_of=() count=$#
    declare -A seen=()
    for i; do
        [[ -n ${seen[${inputs[i]}]-} ]] || first_of+=("$i")
        seen[${inputs[i]}]=yes
    done
    if [[ ${#first_of[@]} -eq 1 ]]; then
        say "$count members are alike, and so are their inputs:"
    else
        by=
        [[ ${#paths[@]} -eq 0 || -n $quiet ]] || find_cause "${first_of[@]}"
        say "$count members became alike though their inputs differ$by:"
        became_alike=yes
    fi
    say_names "$@"
}

# The report. Asks for the arrays names, inputs and outputs, of those that were converted; sets differ, and became_alike where members did. Where the array paths has the inputs' names, the deck and
# its plan are at hand, and it is said by what.
report() {
    local of=("${outputs[@]}") groups=() numbers first same by
    became_alike= differ=0
    if [[ ${#names[@]} -eq 0 ]]; then
        say 'there is no output to compare'
        return
    fi
    group
    say "outputs that differ from one another: $differ of ${#names[@]}"
    [[ ${#groups[@]} -gt 0 ]] || return 0
    if [[ ${#paths[@]} -gt 0 && -z $quiet ]]; then
        had judge_reel
        read_u_card
    fi
    for numbers in "${groups[@]}"; do
        # shellcheck disable=SC2086 # numbers, a word each
        say_group $numbers
    done
}
