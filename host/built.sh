# To be read, in the repository's top folder, by the scripts that build: what was made of the same files by the same
# tools is not made again. What they make goes into target/, which rt ci leaves as it is: it empties crates/NAME/out.
LIBRARY=target/staticlib/libcard.a

# sum_of WORDS FILE..: one number over the tools, the files' names and what they hold.
sum_of() {
    words=$1
    shift
    { echo "$words"; rt version </dev/null; cksum "$@"; } | cksum
}

# is_made WHAT WORDS FILE..: whether WHAT was made of these, and is as it was made.
is_made() {
    what=$1
    shift
    [ -e "$what" ] && [ -e "$what.made" ] && [ "$(cat "$what.made")" = "$(sum_of "$@" "$what")" ]
}

# note_made WHAT WORDS FILE..: notes that it was.
note_made() {
    what=$1
    shift
    sum_of "$@" "$what" >"$what.made"
}

# below CRATE: the crates that it stands on, by rt's list of crates.
below() {
    awk -F: -v crate="$1" '
        function add(name, at, count, names) {
            count = split(uses[name], names, /[ ,]+/)
            for (at = 1; at <= count; at++) if (names[at] in uses && !(names[at] in found)) {
                found[names[at]] = 1
                print names[at]
                add(names[at])
            }
        }
        { sub(/#.*/, "") }
        split($1, head, " ") { uses[head[1]] = $2 }
        END { add(crate) }' crates.txt
}

# sources_of CRATE: the files that it is made of: rt's list of crates, its own, and those of the crates that it stands on.
sources_of() {
    # shellcheck disable=SC2046
    find crates.txt $(for it in "$1" $(below "$1"); do printf 'crates/%s ' "$it"; done) \
        \( -name out -o -name must-fail -o -name data \) -prune -o -type f -print | sort
}

# has_rt: rt is needed.
has_rt() {
    command -v rt >/dev/null 2>&1 || {
        echo "${name:-setup}: rt, the Rattle kit's command, is not on this machine" >&2
        exit 4
    }
}

# build_library: the card's library, where it is not built yet of what stands here. It is built for every x86-64 processor.
# shellcheck disable=SC2046
build_library() {
    is_made "$LIBRARY" library $(sources_of card) && return
    [ -n "${QUIET-}" ] || echo "setup: proving and building the card's library, some minutes where nothing is proved yet" >&2
    mkdir -p "${LIBRARY%/*}" || exit 4
    (cd crates/card && rt lib --cpu x86-64) </dev/null >target/card.log 2>&1 || {
        tail -20 target/card.log >&2
        exit 4
    }
    take_library
}

# take_library: keeps the library that was built of what stands here.
# shellcheck disable=SC2046
take_library() {
    cp crates/card/out/libcard.a "$LIBRARY" && note_made "$LIBRARY" library $(sources_of card) || exit 4
}

# build_program NAME: a program of the repository, target/bin/NAME, where it is not built yet of what stands here. rt builds
# a program where it runs it: here on no input, with no arguments, and whatever comes of that.
# shellcheck disable=SC2046
build_program() {
    is_made "target/bin/$1" program $(sources_of "$1") && return
    [ -x "target/bin/$1" ] || echo "$1: proving and building first, some minutes" >&2
    mkdir -p target/bin || exit 4
    rm -f "crates/$1/out/$1"
    (cd "crates/$1" && rt run) </dev/null >"target/$1.log" 2>&1
    [ -x "crates/$1/out/$1" ] || {
        tail -20 "target/$1.log" >&2
        echo "$1: the program cannot be built" >&2
        exit 4
    }
    take_program "$1"
}

# take_program NAME: keeps the program that was built of what stands here.
# shellcheck disable=SC2046
take_program() {
    mkdir -p target/bin && cp "crates/$1/out/$1" "target/bin/$1" && note_made "target/bin/$1" program $(sources_of "$1") || exit 4
}
