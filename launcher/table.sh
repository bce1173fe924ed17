# shellcheck shell=bash
# To be sourced: the table of a plan, from the lines that the program gives: in words, or as objects.

# The lines, into variables: n and m of A, width and limit of B, the length of the key, the tail (0 none, 1 carried, 2 lost); for each field, by its number, its card, kind (0 copy, 1 pack,
# 2 unpack), first input byte counted through key and data, how many, first output byte, how many; of each run of lost halves the first, the last, why (1 never read, 2 dropped, 3 covered later)
# and the last field that reads it; of each run of output bytes the first, the last and the field that writes it, or 0. Without lines records are carried unchanged: n is 0.
read_table() {
    local line values=()
    n=0 m=0 width=0 limit=0 key=0 tail=0 count=0
    card=() kind=() from=() reads=() to=() written=() lost_from=() lost_to=() lost_why=() lost_by=() out_from=() out_to=() out_by=()
    for line; do
        read -ra values <<<"$line"
        set -- "${values[@]:1}"
        case $line in
            records*) n=$1 m=$2 width=$3 limit=$4 key=$5 ;;
            field*) count=$1 card[$1]=$2 kind[$1]=$3 from[$1]=$4 reads[$1]=$5 to[$1]=$6 written[$1]=$7 ;;
            lost*) lost_from+=("$1") lost_to+=("$2") lost_why+=("$3") lost_by+=("$4") ;;
            tail*) tail=$1 ;;
            output*) out_from+=("$1") out_to+=("$2") out_by+=("$3") ;;
        esac
    done
}

# ---- in words

# So many of a thing, into the variable many.
many_of() {
    many="$1 $2s"
    [[ $1 -ne 1 ]] || many="1 $2"
}

# A byte of an input record by its part, into the variable byte: where there is a key, data count from 1 again.
byte_of() {
    if [[ $key -eq 0 ]]; then
        byte="byte $1"
    elif [[ $1 -le $key ]]; then
        byte="byte $1 of the key"
    else
        byte="byte $(($1 - key)) of the data"
    fi
}

half_of() {
    byte_of $(($1 / 2 + 1))
    half="the high half of $byte"
    [[ $(($1 % 2)) -eq 0 ]] || half="the low half of $byte"
}

# The input bytes FIRST to LAST by their part, short, into the variable bytes.
short_bytes() {
    local first=$1 last=$2 part=
    if [[ $key -gt 0 && $first -le $key ]]; then
        part='key '
    elif [[ $key -gt 0 ]]; then
        part='data ' first=$((first - key)) last=$((last - key))
    fi
    bytes=$part$first-$last
    [[ $first -ne $last ]] || bytes=$part$first
}

# Whole bytes FIRST to LAST of an input record, into the variable bytes. They may begin in the key and end in the data.
whole_bytes() {
    local first
    byte_of "$1"
    first=$byte
    byte_of "$2"
    if [[ $1 -eq $2 ]]; then
        bytes=$byte
    elif [[ $key -gt 0 && $1 -le $key && $2 -gt $key ]]; then
        bytes="$first to $byte"
    else
        bytes="bytes ${first//[^0-9]/} to ${byte#byte }"
    fi
}

# Which halves a run has, into the variable run.
run_of() {
    local first
    if [[ $1 -eq $2 ]]; then
        half_of "$1"
        run="half byte $1, $half"
    elif [[ $(($1 % 2)) -eq 0 && $(($2 % 2)) -eq 1 ]]; then
        whole_bytes $(($1 / 2 + 1)) $(($2 / 2 + 1))
        run="half bytes $1 to $2, $bytes"
    else
        half_of "$1"
        first=$half
        half_of "$2"
        run="half bytes $1 to $2, from $first to $half"
    fi
}

# What became of run i, into the variable why.
why_of() {
    local what=it
    [[ ${lost_from[$1]} -eq ${lost_to[$1]} ]] || what=them
    case ${lost_why[$1]} in
        1) why="no field reads $what" ;;
        2) why="field ${lost_by[$1]} drops $what" ;;
        *) why="field ${lost_by[$1]} writes $what, and a later field covers that" ;;
    esac
}

# Digits that do not go in are dropped on the left, and 0 fills what is left: DIGITS ROOM, into the variable digits.
digits_of() {
    local many
    digits=
    if [[ $1 -gt $2 ]]; then
        many_of $(($1 - $2)) digit
        digits=", and drops the first $many"
    elif [[ $1 -lt $2 ]]; then
        many_of $(($2 - $1)) digit
        digits=", with $many 0 before"
    fi
}

# Which of the bytes that field k writes a later field covers, into the variable covered.
covered_of() {
    local i first last
    covered=
    for ((i = 0; i < ${#out_by[@]}; i++)); do
        [[ ${out_by[i]} -gt $1 ]] || continue
        first=${out_from[i]} last=${out_to[i]}
        [[ $first -ge ${to[$1]} ]] || first=${to[$1]}
        [[ $last -lt $((to[$1] + written[$1])) ]] || last=$((to[$1] + written[$1] - 1))
        [[ $first -le $last ]] || continue
        [[ $first -eq $last ]] || first=$first-$last
        covered+=", $first by field ${out_by[i]}"
    done
    [[ -z $covered ]] || covered="; covered later: ${covered#, }"
}

# What field k does, into the variable does.
what_field() {
    local many digits covered
    many_of "${reads[$1]}" byte
    case ${kind[$1]} in
        0) does="copies $many" ;;
        1) digits_of "${reads[$1]}" $((2 * written[$1] - 1)); does="packs ${many/ / zoned } into ${written[$1]}$digits" ;;
        *) digits_of $((2 * reads[$1] - 1)) "${written[$1]}"; does="unpacks ${many/ / packed } into ${written[$1]}$digits" ;;
    esac
    covered_of "$1"
    does+=$covered
}

say_fields() {
    local i bytes does out
    printf 'field  card  %-13s  %-10s  %s\n' input output 'what it does'
    for ((i = 1; i <= count; i++)); do
        short_bytes "${from[i]}" $((from[i] + reads[i] - 1))
        out=${to[i]}-$((to[i] + written[i] - 1))
        [[ ${written[i]} -ne 1 ]] || out=${to[i]}
        what_field "$i"
        printf '%5d  %4d  %-13s  %-10s  %s\n' "$i" "${card[i]}" "$bytes" "$out" "$does"
    done
}

say_losses() {
    local i all=0 run half why byte many runs
    for ((i = 0; i < ${#lost_from[@]}; i++)); do all=$((all + lost_to[i] - lost_from[i] + 1)); done
    many_of "${#lost_from[@]}" run
    runs=$many
    many_of "$all" 'half byte'
    if [[ $all -eq 0 ]]; then printf 'lost half bytes: none\n'; else printf 'lost: %s, in %s\n' "$many" "$runs"; fi
    for ((i = 0; i < ${#lost_from[@]}; i++)); do
        run_of "${lost_from[i]}" "${lost_to[i]}"
        why_of "$i"
        printf '    %s: %s\n' "$run" "$why"
    done
    case $tail in
        1) printf 'the tail, all data past the first %s bytes: carried by CV\n' "$n" ;;
        2) printf 'the tail, all data past the first %s bytes: lost, since CV is not given\n' "$n" ;;
    esac
}

say_blanks() {
    local i blanks=
    for ((i = 0; i < ${#out_by[@]}; i++)); do
        [[ ${out_by[i]} -eq 0 ]] || continue
        if [[ ${out_from[i]} -eq ${out_to[i]} ]]; then blanks+=", ${out_from[i]}"; else blanks+=", ${out_from[i]}-${out_to[i]}"; fi
    done
    blanks=${blanks#, }
    printf 'output bytes that no field writes, which are blank (hex 40): %s\n' "${blanks:-none}"
}

say_table() {
    local more=
    if [[ $n -eq 0 ]]; then
        printf 'every record is carried unchanged\n'
        return
    fi
    [[ $key -eq 0 ]] || more=" (a key of $key, data of $((n - key)))"
    [[ $tail -eq 0 ]] || more=' and a tail'
    printf 'input record: %s bytes%s, in blocks of at most %s\n' "$n" "$more" "$m"
    printf 'output record: %s bytes, in blocks of at most %s\n' "$width" "$limit"
    say_fields
    say_losses
    say_blanks
}

# ---- as objects

# The numbers of each line by name; those of a field as the table of the C interface has them: r counts in its part, 0 is the data, 1 the key.
object_table() {
    local i part r
    [[ $n -gt 0 ]] || return 0
    called 'input input_block output output_block key'
    pass "$n $m $width $limit $key"
    called 'field card kind part r input output t'
    for ((i = 1; i <= count; i++)); do
        part=0 r=$((from[i] - key))
        [[ ${from[i]} -gt $key ]] || part=1 r=${from[i]}
        pass "$i ${card[i]} ${kind[i]} $part $r ${reads[i]} ${written[i]} ${to[i]}"
    done
    called 'lost_from lost_to reason reader'
    for ((i = 0; i < ${#lost_from[@]}; i++)); do pass "${lost_from[i]} ${lost_to[i]} ${lost_why[i]} ${lost_by[i]}"; done
    called 'tail'
    pass "$tail"
    called 'output_from output_to writer'
    for ((i = 0; i < ${#out_from[@]}; i++)); do pass "${out_from[i]} ${out_to[i]} ${out_by[i]}"; done
}

# Tells the table that these lines give.
tell_table() {
    local n m width limit key tail count card kind from reads to written lost_from lost_to lost_why lost_by out_from out_to out_by
    read_table "$@"
    if [[ -n $json ]]; then
        object_table
    else
        say_table
    fi
}
