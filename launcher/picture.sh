# shellcheck shell=bash
# To be sourced: the picture of a plan, in SVG: the input record above, the output record below, fields as bands between them, lost half bytes in red. Lengths are
# counted in hundredths of a pixel.

# One after the other, for bands; none is near the red of what is lost.
colours=('#4c78a8' '#54a24b' '#b279a2' '#e3a72f' '#3aa6a0' '#9d755d' '#6b6ecf' '#8ca252')
red='#d62728'

# Where the bars stand: their left edge, the most that they take, and their upper and lower edges.
left=4000 most=112000
in_top=14000 in_end=18000 out_top=40000 out_end=44000

# A length in pixels, into the variable pixels.
pixels_of() {
    printf -v pixels '%d.%02d' $(($1 / 100)) $(($1 % 100))
}

# How wide both bars are, in one scale unless the shorter one could hardly be seen: 40 pixels are the most for a byte. Sets in_width and out_width.
scale() {
    local room=$most longer=$n
    [[ $tail -eq 0 ]] || room=$((most - 9000))
    [[ $width -le $n ]] || longer=$width
    [[ $((4000 * longer)) -ge $room ]] || room=$((4000 * longer))
    in_width=$((room * n / longer)) out_width=$((room * width / longer))
    [[ $in_width -ge 24000 || $((4000 * n)) -le $in_width ]] || widen in_width "$n"
    [[ $out_width -ge 24000 || $((4000 * width)) -le $out_width ]] || widen out_width "$width"
}

widen() {
    printf -v "$1" %d 24000
    [[ $((4000 * $2)) -ge 24000 ]] || printf -v "$1" %d $((4000 * $2))
}

# Where half h of a record begins: of the input, of the output.
in_x() { x=$((left + $1 * in_width / (2 * n))); }
out_x() { x=$((left + $1 * out_width / (2 * width))); }

# ---- pieces

# X Y WIDTH HEIGHT CLASS FILL [TITLE]
box() {
    local pixels a b c d
    pixels_of "$1"; a=$pixels
    pixels_of "$2"; b=$pixels
    pixels_of "$3"; c=$pixels
    pixels_of "$4"; d=$pixels
    if [[ -n ${7-} ]]; then
        printf '<rect x="%s" y="%s" width="%s" height="%s" class="%s" fill="%s"><title>%s</title></rect>\n' "$a" "$b" "$c" "$d" "$5" "$6" "$7"
    else
        printf '<rect x="%s" y="%s" width="%s" height="%s" class="%s" fill="%s"/>\n' "$a" "$b" "$c" "$d" "$5" "$6"
    fi
}

# X Y CLASS TEXT
text() {
    local pixels a
    pixels_of "$1"; a=$pixels
    pixels_of "$2"
    printf '<text x="%s" y="%s" class="%s">%s</text>\n' "$a" "$pixels" "$3" "$4"
}

# X from Y to Y
upright() {
    local pixels a b
    pixels_of "$1"; a=$pixels
    pixels_of "$2"; b=$pixels
    pixels_of "$3"
    printf '<line x1="%s" y1="%s" x2="%s" y2="%s" class="%s"/>\n' "$a" "$b" "$a" "$pixels" "$4"
}

# ---- bars

# The step between numbers of a ruler, so that they stand apart: BYTES WIDTH, into the variable step.
step_of() {
    for step in 1 2 5 10 20 50 100 200 500 1000 2000; do
        [[ $((step * $2 / $1)) -lt 3600 ]] || break
    done
}

# The positions of so many bytes from X on, from 1: BYTES WIDTH X TICK_FROM TICK_TO TEXT_AT. The first byte has its number, and each that is a multiple of the step.
ruler() {
    local step i middle
    step_of "$1" "$2"
    for ((i = 1; i <= $1; i++)); do
        if [[ $step -gt 1 && $i -ne 1 ]]; then
            i=$(((i + step - 1) / step * step))
            [[ $i -le $1 ]] || break
        fi
        middle=$(($3 + (2 * i - 1) * $2 / (2 * $1)))
        upright "$middle" "$4" "$5" tick
        text "$middle" "$6" small "$i"
    done
}

# Lines between bytes, where they are wide enough: BYTES WIDTH TOP END.
grid() {
    local i
    [[ $(($2 / $1)) -ge 500 ]] || return 0
    for ((i = 1; i < $1; i++)); do upright $((left + i * $2 / $1)) "$3" "$4" grid; done
}

# What field k reads, in its colour.
draw_read() {
    local x start
    in_x $((2 * from[$1] - 2)); start=$x
    in_x $((2 * (from[$1] + reads[$1] - 1)))
    box "$start" "$in_top" $((x - start)) $((in_end - in_top)) read "${colours[($1 - 1) % ${#colours[@]}]}"
}

# A run of lost halves: red, and a mark above it that is seen in the longest record too.
draw_lost() {
    local x start wide run half byte bytes why pixels a
    in_x "${lost_from[$1]}"; start=$x
    in_x $((lost_to[$1] + 1)); wide=$((x - start))
    [[ $wide -ge 200 ]] || wide=200
    run_of "${lost_from[$1]}" "${lost_to[$1]}"
    why_of "$1"
    box "$start" "$in_top" "$wide" $((in_end - in_top)) lost "$red" "lost: $run: $why"
    pixels_of $((start + wide / 2)); a=$pixels
    pixels_of $((in_top - 100))
    printf '<path d="M%s %s l-4 -7 h8 z" class="mark"/>\n' "$a" "$pixels"
    [[ ${lost_from[$1]} -ne ${lost_to[$1]} || $wide -lt 1300 ]] || text $((start + wide / 2)) $((in_end - 1500)) inverse "${lost_from[$1]}"
}

# A run of output bytes: in the colour of the field that writes it, or as blanks.
draw_output() {
    local x start wide by=${out_by[$1]} what
    out_x $((2 * out_from[$1] - 2)); start=$x
    out_x $((2 * out_to[$1])); wide=$((x - start))
    if [[ $by -eq 0 ]]; then
        box "$start" "$out_top" "$wide" $((out_end - out_top)) blank 'url(#blank)' "output bytes ${out_from[$1]}-${out_to[$1]}: blank, hex 40"
        what=blank
        [[ $wide -ge 4000 ]] || what=
    else
        box "$start" "$out_top" "$wide" $((out_end - out_top)) owned "${colours[(by - 1) % ${#colours[@]}]}" "output bytes ${out_from[$1]}-${out_to[$1]}: written by field $by"
        what=$by
        [[ $wide -ge 1200 ]] || what=
    fi
    if [[ -n $what && $wide -lt 2000 ]]; then
        text $((start + wide / 2)) $((out_end - 1650)) narrow "$what"
    elif [[ -n $what ]]; then
        text $((start + wide / 2)) $((out_end - 1550)) label "$what"
    fi
}

# ---- bands

# The band of field k, from what it reads to what it writes. Keeps the places of its upper and lower edge for its label.
draw_band() {
    local x pixels a b c d does colour=${colours[($1 - 1) % ${#colours[@]}]}
    in_x $((2 * from[$1] - 2)); above[$1]=$x; pixels_of "$x"; a=$pixels
    in_x $((2 * (from[$1] + reads[$1] - 1))); above_wide[$1]=$((x - above[$1])); pixels_of "$x"; b=$pixels
    out_x $((2 * (to[$1] + written[$1] - 1))); below_wide[$1]=$x; pixels_of "$x"; c=$pixels
    out_x $((2 * to[$1] - 2)); below_wide[$1]=$((below_wide[$1] - x)); below[$1]=$x; pixels_of "$x"; d=$pixels
    what_field "$1"
    printf '<polygon points="%s,%s %s,%s %s,%s %s,%s" class="band" fill="%s" stroke="%s"><title>field %s, card %s: %s</title></polygon>\n' \
        "$a" $((in_end / 100)) "$b" $((in_end / 100)) "$c" $((out_top / 100)) "$d" $((out_top / 100)) "$colour" "$colour" "$1" "${card[$1]}" "$does"
}

# The middle of the band of field k and its width, so many percent of the way down: into the variables middle and wide.
middle_of() {
    local start=$((above[$1] + (below[$1] - above[$1]) * $2 / 100))
    wide=$((above_wide[$1] + (below_wide[$1] - above_wide[$1]) * $2 / 100))
    middle=$((start + wide / 2))
}

# The label of field k, at the first height where it meets no other.
draw_label() {
    local names=(copy pack unpack) label="$1 " class=label size=5600 down j middle wide free
    label+=${names[kind[$1]]}
    middle_of "$1" 50
    [[ $wide -ge 5600 ]] || { label=$1 size=1500 class=narrow; }
    for down in 50 30 70 20 80 40 60 10 90; do
        middle_of "$1" "$down"
        free=yes
        for ((j = 0; j < ${#labels_at[@]}; j += 3)); do
            [[ ${labels_at[j]} -ne $down || $((middle - labels_at[j + 1])) -gt $(((size + labels_at[j + 2]) / 2)) || $((labels_at[j + 1] - middle)) -gt $(((size + labels_at[j + 2]) / 2)) ]] || free=
        done
        [[ -z $free ]] || break
    done
    [[ $wide -ge 900 && -n $free ]] || return 0
    labels_at+=("$down" "$middle" "$size")
    text "$middle" $((in_end + (out_top - in_end) * down / 100 + 450)) "$class" "$label"
}

# ---- the rest

# The tail, behind both bars: lost, or carried from one to the other.
draw_tail() {
    local at_in=$((left + in_width + 1500)) at_out=$((left + out_width + 1500)) pixels a b c d
    case $tail in
        1)
            pixels_of "$at_in"; a=$pixels
            pixels_of $((at_in + 6000)); b=$pixels
            pixels_of $((at_out + 6000)); c=$pixels
            pixels_of "$at_out"; d=$pixels
            printf '<polygon points="%s,%s %s,%s %s,%s %s,%s" class="band" fill="#bbb" stroke="#888"><title>the tail, carried by CV</title></polygon>\n' \
                "$a" $((in_end / 100)) "$b" $((in_end / 100)) "$c" $((out_top / 100)) "$d" $((out_top / 100))
            box "$at_in" "$in_top" 6000 $((in_end - in_top)) tail '#ddd' 'the tail, carried by CV'
            box "$at_out" "$out_top" 6000 $((out_end - out_top)) tail '#ddd' 'the tail, carried by CV'
            text $((at_in + 3000)) $((in_end - 1550)) label tail
            text $((at_out + 3000)) $((out_end - 1550)) label tail
            ;;
        2)
            box "$at_in" "$in_top" 6000 $((in_end - in_top)) tail "$red" 'the tail is lost: CV is not given'
            text $((at_in + 3000)) $((in_end - 1550)) inverse tail
            ;;
    esac
}

# What the colours mean, and the runs of lost halves, as many as can be read.
draw_words() {
    local y=51200 i run half byte bytes why
    box "$left" $((y - 1100)) 1400 1400 lost "$red"
    text $((left + 2200)) "$y" line 'lost half byte'
    box $((left + 16000)) $((y - 1100)) 1400 1400 blank 'url(#blank)'
    text $((left + 18200)) "$y" line 'blank (hex 40): no field writes it'
    text $((left + 46000)) "$y" line 'A band is a field, from what it reads to what it writes; a later one covers an earlier one.'
    y=$((y + 800))
    for ((i = 0; i < ${#lost_from[@]} && i < 12; i++)); do
        run_of "${lost_from[i]}" "${lost_to[i]}"
        why_of "$i"
        y=$((y + 2200))
        text "$left" "$y" loss "lost: $run: $why"
    done
    [[ ${#lost_from[@]} -le 12 ]] || { y=$((y + 2200)); text "$left" "$y" loss "and $((${#lost_from[@]} - 12)) more runs: plan --table lists them all"; }
    [[ $tail -ne 2 ]] || { y=$((y + 2200)); text "$left" "$y" loss "lost: the tail, all data past the first $n bytes: CV is not given"; }
}

# How high the picture is, into the variable high.
high_of() {
    local rows=${#lost_from[@]}
    [[ $rows -le 12 ]] || rows=13
    [[ $tail -ne 2 ]] || rows=$((rows + 1))
    high=$((545 + 22 * rows))
}

# The first lines, with the deck's name as it is shown and what its plan says.
draw_head() {
    local shown='standard input' verdict class=kept
    [[ $1 == - ]] || styled "$1" in_xml
    case $plan in
        '0 0 1 '*) verdict='The plan keeps: no two different records become alike.' ;;
        *) verdict='The plan loses: records that differ only where it is red become alike.' class=loss ;;
    esac
    cat <<TEXT
<svg xmlns="http://www.w3.org/2000/svg" width="1200" height="$high" viewBox="0 0 1200 $high" role="img">
<title>The plan of $shown</title>
<style>
text { font-family: sans-serif; fill: #222 } .head { font-size: 20px; font-weight: bold } .name, .line, .loss, .kept { font-size: 14px } .loss { fill: $red } .kept { fill: #2a7a2a }
.small { font-size: 11px; fill: #555; text-anchor: middle } .label { font-size: 13px; text-anchor: middle } .narrow { font-size: 10px; text-anchor: middle } .label, .narrow { paint-order: stroke; stroke: #fff; stroke-width: 3px; stroke-opacity: .6 }
.inverse { font-size: 10px; fill: #fff; text-anchor: middle }
.bar { fill: #fff; stroke: #222 } .outline { fill: none; stroke: #222; stroke-width: 1.5 } .read { fill-opacity: .45 } .owned { fill-opacity: .6; stroke: #222; stroke-width: .5 }
.blank { stroke: #888; stroke-width: .5 } .band { fill-opacity: .3; stroke-width: 1 } .tail { stroke: #222; stroke-dasharray: 4 3 } .tick { stroke: #888 } .grid { stroke: #222; stroke-opacity: .25 }
.part { stroke: #222; stroke-width: 2 } .mark { fill: $red }
</style>
<defs><pattern id="blank" width="6" height="6" patternUnits="userSpaceOnUse" patternTransform="rotate(45)"><rect width="6" height="6" fill="#fff"/><rect width="2" height="6" fill="#bbb"/></pattern></defs>
<rect width="1200" height="$high" fill="#fff"/>
<text x="40" y="36" class="head">$shown</text>
<text x="40" y="62" class="$class">$verdict</text>
TEXT
}

# The input record with its parts, what is read of it and what is lost.
draw_input() {
    local i x
    text "$left" 9400 name "input record: $n bytes"
    box "$left" "$in_top" "$in_width" $((in_end - in_top)) bar '#fff'
    for ((i = 1; i <= count; i++)); do draw_read "$i"; done
    grid "$n" "$in_width" "$in_top" "$in_end"
    for ((i = 0; i < ${#lost_from[@]}; i++)); do draw_lost "$i"; done
    box "$left" "$in_top" "$in_width" $((in_end - in_top)) outline none
    if [[ $key -eq 0 ]]; then
        ruler "$n" "$in_width" "$left" 12600 13100 12400
        return
    fi
    in_x $((2 * key))
    upright "$x" 9800 "$in_end" part
    text $((left + (x - left) / 2)) 11000 name key
    text $((x + (left + in_width - x) / 2)) 11000 name data
    ruler "$key" $((x - left)) "$left" 12600 13100 12400
    ruler $((n - key)) $((left + in_width - x)) "$x" 12600 13100 12400
}

draw_out() {
    local i
    box "$left" "$out_top" "$out_width" $((out_end - out_top)) bar '#fff'
    for ((i = 0; i < ${#out_from[@]}; i++)); do draw_output "$i"; done
    grid "$width" "$out_width" "$out_top" "$out_end"
    box "$left" "$out_top" "$out_width" $((out_end - out_top)) outline none
    ruler "$width" "$out_width" "$left" "$out_end" $((out_end + 500)) $((out_end + 1700))
    text "$left" $((out_end + 3700)) name "output record: $width bytes"
}

# A plan that selects no field.
draw_unchanged() {
    local high=470
    draw_head "$1"
    text "$left" 12800 name 'input record'
    box "$left" "$in_top" 60000 $((in_end - in_top)) owned "${colours[0]}"
    printf '<polygon points="40,180 640,180 640,400 40,400" class="band" fill="%s" stroke="%s"/>\n' "${colours[0]}" "${colours[0]}"
    text $((left + 30000)) 29500 label 'every record is carried unchanged'
    box "$left" "$out_top" 60000 $((out_end - out_top)) owned "${colours[0]}"
    text "$left" $((out_end + 1900)) name 'output record'
    printf '</svg>\n'
}

draw() {
    local in_width out_width high i above=() above_wide=() below=() below_wide=() labels_at=() does covered digits many
    if [[ $n -eq 0 ]]; then
        draw_unchanged "$1"
        return
    fi
    scale
    high_of
    draw_head "$1"
    for ((i = 1; i <= count; i++)); do draw_band "$i"; done
    draw_tail
    for ((i = 1; i <= count; i++)); do draw_label "$i"; done
    draw_input
    draw_out
    draw_words
    printf '</svg>\n'
}

# Writes the picture of the deck's plan, which these lines give, beside its place first: DECK LINES..
write_picture() {
    local n m width limit key tail count card kind from reads to written lost_from lost_to lost_why lost_by out_from out_to out_by x part place LC_ALL=C
    read_table "${@:2}"
    folder_of "$picture"
    places=("$place")
    part=${picture##*/}
    printf -v part '%s/.%s.%d-%04x.part' "$place" "${part:0:200}" $$ "$RANDOM"
    if ! { draw "$1" >"$part"; } 2>/dev/null || { [[ $mode != - ]] && ! chmod "$mode" -- "$part"; } || ! mv -f -- "$part" "$picture"; then
        rm -f -- "$part"
        unusable "$picture" 'cannot be written'
    fi
}
