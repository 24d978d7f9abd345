# Completion of dxc's words for bash: modes, and what each may have behind it, are read from `dxc --help`.

# The names of a mode's words, as "SHELF JOURNAL ADDRESS"; of several lines the longest, of equal ones the first.
_dxc_words() {
    "$1" --help 2>/dev/null | sed -n "s/^  dxc $2 \([A-Z ]*[A-Z]\)\( .*\)*$/\1/p" | awk '{ if (NF > most) { most = NF; line = $0 } } END { print line }'
}

_dxc() {
    local given=${COMP_WORDS[COMP_CWORD]} mode=${COMP_WORDS[1]} words
    COMPREPLY=()
    if [ "$COMP_CWORD" -eq 1 ]; then
        words=$("$1" --help 2>/dev/null | sed -n 's/^  dxc \([a-z-]*\)\( .*\)*$/\1/p' | sort -u)
        mapfile -t COMPREPLY < <(compgen -W "$words" -- "$given")
        return
    fi
    read -r -a words < <(_dxc_words "$1" "$mode")
    case ${words[COMP_CWORD - 2]} in
        SHELF | JOURNAL | LINES)
            compopt -o filenames 2>/dev/null
            mapfile -t COMPREPLY < <(compgen -f -- "$given")
            ;;
        WORKERS) mapfile -t COMPREPLY < <(compgen -W "1 2 3 4 5 6 7 8" -- "$given") ;;
    esac
}

complete -F _dxc dxc
