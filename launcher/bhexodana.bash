# shellcheck shell=bash
# Completion for bash: to be sourced, in a checkout by `. launcher/bhexodana.bash`; an installation has it where bash looks for it.

# What may stand behind a command, into the variable options.
_bhexodana_options() {
    options='--help --quiet'
    case $1 in
        plan) options+=' --json --strict --table --picture --force --no-clobber' ;;
        twins) options+=' --json --records --reel --force --no-clobber' ;;
        check | compare) options+=' --json --strict' ;;
        convert) options+=' --json --strict --force --no-clobber' ;;
        convert-all) options+=' --json --strict --force --no-clobber -j --names --null' ;;
        judge | judge-all) options+=' --json' ;;
    esac
}

# Commands first; then options behind a dash, folders where a command wants them, and files. The names of files are put in as they are, and bash quotes them.
_bhexodana() {
    local word=${COMP_WORDS[COMP_CWORD]} before=${COMP_WORDS[COMP_CWORD - 1]} command=${COMP_WORDS[1]} options
    local commands='plan twins check convert convert-all compare judge judge-all build install help'
    COMPREPLY=()
    if [[ $COMP_CWORD -eq 1 || ($COMP_CWORD -eq 2 && $command == help) ]]; then
        [[ $COMP_CWORD -eq 2 ]] || commands+=' --help --version'
        mapfile -t COMPREPLY < <(compgen -W "$commands" -- "$word")
        return
    fi
    _bhexodana_options "$command"
    if [[ $before == -j ]]; then
        return
    elif [[ $word == -* ]]; then
        mapfile -t COMPREPLY < <(compgen -W "$options" -- "$word")
    elif [[ $command == install || $command == judge-all && $COMP_CWORD -gt 2 || $command == convert-all && $COMP_CWORD -eq 3 ]]; then
        compopt -o filenames 2>/dev/null
        mapfile -t COMPREPLY < <(compgen -d -- "$word")
    elif [[ $command != build ]]; then
        compopt -o filenames 2>/dev/null
        mapfile -t COMPREPLY < <(compgen -f -- "$word")
    fi
}
complete -F _bhexodana bhexodana
