# Read in by rust/library, which sets $root and stop(): what the static library is made of, and how the toolchain makes it.

# The crates of the static library, each behind those that it stands on. With them come the toolchain's own libraries that they name.
crates() {
    awk '
        { sub(/#.*/, "") }
        i = index($0, ":") { split(substr($0, 1, i - 1), words, " "); below[words[1]] = substr($0, i + 1) }
        function visit(name, names, count, k) {
            if (seen[name]++) return
            count = split(below[name], names, " ")
            for (k = 1; k <= count; k++) visit(names[k])
            print name
        }
        END { visit("lintelow_c") }
    ' "$root/crates.txt"
}

# A number that changes with what the library says or is proved by, and with the processor; not with a file's date.
sources() { # PROCESSOR
    (
        cd "$root"
        set -- "$1" $(crates)
        processor=$1
        shift
        for name; do
            shift
            for part in src specs proofs; do [ ! -d "crates/$name/$part" ] || set -- "$@" "crates/$name/$part"; done
        done
        { echo "$processor"; sed '/^#/d' crates.txt; find "$@" -type f -exec sha256sum {} + | LC_ALL=C sort; } | sha256sum | cut -d ' ' -f 1
    )
}

# Whether a folder has the library of these sources: beside it stands what it was made from, and its own sum, in case something else was put there.
made_from() { echo "$2 $(sha256sum <"$1/liblintelow.a")"; } # FOLDER SOURCES
is_made() { [ -f "$1/liblintelow.a" ] && [ "$(made_from "$1" "$2")" = "$(cat "$1/made-from" 2>/dev/null)" ]; }

find_toolchain() {
    rt=$(command -v rt) ||
        stop "the Rattle toolchain is missing: put its bin/ on the PATH, or name a folder that has liblintelow.a by LINTELOW_LIB"
    home=$(dirname "$(dirname "$(readlink -f "$rt")")")
}

# For which processor the toolchain compiles. Without the first of these words the code would need a later x86-64 than the first.
target_words() { # PROCESSOR
    case $1 in
        x86_64) echo --cpu x86-64 ;;
        aarch64) echo --target aarch64-unknown-linux-gnu ;;
        *) stop "the Rattle toolchain compiles for x86_64 and aarch64, and not for $1" ;;
    esac
}

# Whether each crate below the library is as 'rt ci' proved and left it, and none is of another command, which 'rt' notes in a stamp.
is_left_by_ci() {
    for name in $(crates); do
        [ -d "$root/crates/$name" ] && [ "$name" != lintelow_c ] || continue
        [ -d "$root/crates/$name/out/rlib/$name.rlib" ] && [ ! -e "$root/crates/$name/out/rlib/stamp" ] || return 1
    done
}

# As 'rt lib' makes it, which would prove again all that 'rt ci' has just proved: lintelow_c is checked over what that left, and compiled.
over_ci() { # PROCESSOR
    cd "$root/crates/lintelow_c"
    set -- $(target_words "$1") --extern "std=$home/rlibs/std.rlib" -L "dependency=$home/rlibs"
    named=" $(sed -n 's/^lintelow_c staticlib://p' "$root/crates.txt") "
    for name in $(crates); do
        made=$root/crates/$name/out/rlib
        [ "$name" != lintelow_c ] && [ -d "$root/crates/$name" ] || { made=$home/rlibs; [ -d "$made/$name.rlib" ] || continue; }
        case $named in *" $name "*) set -- "$@" --extern "$name=$made/$name.rlib" ;; esac
        set -- "$@" -L "dependency=$made"
    done
    mkdir -p out
    "$home/bin/rattle" build --crate-name lintelow_c src/lib.rt "$@" --antt-project "$home/rattle/logic/antt-project.json" --logic-built "$home/logic_built" \
        --links lintelow_c= --crate-type staticlib --toolchain "$home/toolchain" -o out/liblintelow_c.a
}

by_lib() { # PROCESSOR
    cd "$root/crates/lintelow_c"
    rt lib $(target_words "$1")
}
