# shellcheck shell=bash
# To be sourced: how names, numbers and words are shown. A name may have any byte but NUL: what could end a line or reach a terminal as a command is escaped.

# A run of characters that every style leaves as they are: printable ones of ASCII but for " & < > and \, and whole ones of UTF-8 that are no control characters.
next=$'[\x80-\xbf]'
plain_run=$'\xc2[\xa0-\xbf]|[\xc3-\xdf]'$next$'|\xe0[\xa0-\xbf]'$next$'|[\xe1-\xec\xee\xef]'$next$next$'|\xed[\x80-\x9f]'$next$'|\xf0[\x90-\xbf]'$next$next$'|[\xf1-\xf3]'$next$next$next$'|\xf4[\x80-\x8f]'$next$next
plain_run="^([] !#-%'-;=?-[^-~]|$plain_run)+"

# A text in a style, into the variable shown: TEXT STYLE, which is one of those below.
styled() {
    local LC_ALL=C rest=$1 byte code piece
    shown=
    while [[ -n $rest ]]; do
        if [[ $rest =~ $plain_run ]]; then
            shown+=${BASH_REMATCH[0]}
            rest=${rest:${#BASH_REMATCH[0]}}
            continue
        fi
        byte=${rest:0:1}
        # a control character of two bytes is one of this byte and the next
        if [[ $rest == $'\xc2'[$'\x80'-$'\x9f']* ]]; then byte=${rest:0:2}; fi
        rest=${rest:${#byte}}
        printf -v code %d "'${byte: -1}"
        code=$((code & 255))
        "$2"
        shown+=$piece
    done
}

# On a line, as printf's %b takes it back: a control character escaped, a backslash doubled, any other byte as it is.
on_line() {
    case $byte in
        \\) piece='\\' ;;
        $'\n') piece='\n' ;;
        $'\r') piece='\r' ;;
        $'\t') piece='\t' ;;
        ??) printf -v piece '\\xc2\\x%02x' "$code" ;;
        *) if ((code < 32 || code == 127)); then printf -v piece '\\x%02x' "$code"; else piece=$byte; fi ;;
    esac
}

# In JSON; a byte that is no character in UTF-8 is the half of a pair that Python makes of it in names of files.
in_json() {
    case $byte in
        \\ | \") piece=\\$byte ;;
        '&' | '<' | '>') piece=$byte ;;
        ??) printf -v piece '\\u00%02x' "$code" ;;
        *) if ((code < 128)); then printf -v piece '\\u00%02x' "$code"; else printf -v piece '\\udc%02x' "$code"; fi ;;
    esac
}

# In XML, to be seen: what cannot stand there is shown as on a line, and so is a byte that is no character in UTF-8.
in_xml() {
    case $byte in
        '"') piece='&quot;' ;;
        '&') piece='&amp;' ;;
        '<') piece='&lt;' ;;
        '>') piece='&gt;' ;;
        *) on_line; ((code < 128)) || [[ $byte == ?? ]] || printf -v piece '\\x%02x' "$code" ;;
    esac
}

# A name for people and on lines, into the variable shown: one without a control character as it is.
show() {
    styled "$1" on_line
    [[ ${shown//\\\\/\\} != "$1" ]] || shown=$1
}

# ---- words, on standard error

# Says words, a line each, unless they are not wanted: the numbers and the status say the same.
say() {
    [[ -n $quiet ]] || printf '%s\n' "$@" >&2
}

# Says of a name what stands against it, also where words are not wanted: NAME WORDS.
complain() {
    local shown
    show "$1"
    printf '%s\n' "$shown: $2" >&2
}

# The same, and stops: 2 for a file that cannot be used.
unusable() {
    complain "$@"
    exit 2
}

# ---- lines, on standard output

# What the numbers of this command's lines are called, in their order.
columns=
called() {
    columns=$1
}

# The object of a line in JSON, into the variable object: NUMBERS [KEY NAME], the name of a file by its key.
as_object() {
    local shown key values=() i=0
    read -ra values <<<"$1"
    object=
    for key in $columns; do
        object+=,\"$key\":${values[i]}
        i=$((i + 1))
    done
    if [[ $# -gt 1 ]]; then
        styled "$3" in_json
        object+=,\"$2\":\"$shown\"
    fi
    object={${object#,}}
}

# Passes a line on: NUMBERS [KEY NAME]. No line, no numbers.
pass() {
    local object shown=
    [[ -n $1 ]] || return 0
    if [[ -n $json ]]; then
        as_object "$@"
    else
        [[ $# -eq 1 ]] || show "$3"
        object=$1${shown:+ $shown}
    fi
    printf '%s\n' "$object" || { printf '%s\n' 'standard output: cannot be written' >&2; exit 2; }
}
