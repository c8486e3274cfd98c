# Read in by rust/library and ./check: 'counted FILE COMMAND ..' runs a command of 'rt' with what it prints in a file, and tells how far it is: on a terminal by
# one line that is written over, elsewhere by a line every half minute. LINTELOW_PROGRESS may name the terminal, for who has no standard error of its own.
# The caller sets $began, $all_crates and, where they are tried and run too, $all_edits and $all_programs.

# Seconds in words.
span() {
    if [ "$1" -lt 60 ]; then echo "$1 s"; else echo "$(($1 / 60)) min $(($1 % 60)) s"; fi
}

so_far() { echo "$(span $(($(date +%s) - began))) so far"; }

# By what 'rt' prints: 'rt ci' says of each crate when it is proved and when its edits are begun, and 'rt lib' when a crate is begun.
how_far() { # FILE
    if [ -z "${all_edits:-}" ]; then
        name=$(sed -n 's/^rt: chose --jobs [0-9]* for \([A-Za-z0-9_]*\)$/\1/p' "$1" | tail -n 1)
        echo "proving ${name:+$name, one of }$all_crates crates, $(so_far)"
        return
    fi
    proved=$(sed -n 's/^rt: \([A-Za-z0-9_]*\) \(proved\|is kept: .*\)$/\1/p' "$1" | sort -u | wc -l)
    tried=$(sed -n 's/^rt: [A-Za-z0-9_]*: trying its must-fail edits (\([0-9]*\))$/\1/p' "$1" | awk '{ n += $1 } END { print n + 0 }')
    ran=$(sed -n 's/^rt: \([A-Za-z0-9_]*\) ran[ ,(].*/\1/p' "$1" | sort -u | wc -l)
    if [ "$ran" -gt 0 ]; then
        echo "ran $ran of $all_programs programs, $(so_far)"
    else
        echo "proved $proved of $all_crates crates, began $tried of $all_edits must-fail edits, $(so_far)"
    fi
}

# Tells it until it is ended, or the command's own shell is gone.
tell() { # FILE
    seconds=0
    while sleep 1 3>&- && kill -0 $$ 2>/dev/null; do
        if [ -t 3 ]; then
            printf '\r\033[K%.79s' "$(how_far "$1")" >&3
        elif [ $((seconds % 30)) -eq 0 ]; then
            printf '%s\n' "$(how_far "$1")" >&3
        fi
        seconds=$((seconds + 1))
    done
}

counted() { # FILE COMMAND ..
    file=$1 status=0
    shift
    if [ -n "${LINTELOW_PROGRESS:-}" ]; then exec 3>>"$LINTELOW_PROGRESS"; else exec 3>&2; fi
    : >"$file"
    tell "$file" &
    teller=$!
    "$@" >"$file" 2>&1 3>&- || status=$?
    kill "$teller" 2>/dev/null || :
    wait "$teller" 2>/dev/null || :
    [ ! -t 3 ] || printf '\r\033[K' >&3
    exec 3>&-
    return "$status"
}
