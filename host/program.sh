# To be read by the wrappers, which set `name` and `help`: their arguments and input, and for host/palmer and
# host/division the program itself, which is proved and built first where it is not yet. These two end with status 0
# whatever they say, so what they print is held back until they have ended: the wrapper tells by it what happened, and
# whether it can be written.
top=$(dirname "$(dirname "$(readlink -f "$0")")")

say() {
    printf '%s: %s\n' "$name" "$*" >&2
}

# wrong WORDS: the arguments are wrong.
wrong() {
    say "$*; host/$name --help says how it is used"
    exit 2
}

# asks_help ARGUMENT..: --help, and an option that is none.
asks_help() {
    case ${1-} in
        --help | -h)
            help 2>/dev/null || unwritten
            exit 0
            ;;
        -*) wrong "there is no option $1 (a file whose name begins so is written ./$1)" ;;
    esac
}

# input [FILE]: standard input is FILE from here on. It is opened in the caller's folder.
input() {
    if [ $# -eq 0 ]; then
        [ ! -t 0 ] || say 'reading from the terminal; Ctrl-D ends the input'
        return
    fi
    [ -n "$1" ] || wrong 'the name of FILE is empty'
    [ -e "$1" ] || unread "$1: there is no such file"
    [ ! -d "$1" ] || unread "$1 is a folder"
    [ -r "$1" ] || unread "$1 may not be read"
    exec <"$1"
}

unread() {
    say "the input cannot be read: $*"
    exit 2
}

unwritten() {
    say 'the output cannot be written'
    exit 3
}

# Proves and builds the program, where it is not built yet of what stands here.
build() {
    (
        cd "$top" || exit 4
        . host/built.sh
        has_rt
        build_program "$name"
    ) || exit 4
}

# told FILE WORDS: whether a program said this on standard error.
told() {
    grep -qx "$name: $2" "$1"
}

# judged FOLDER STATUS: the wrapper's status, by what the program printed and its own status.
judged() {
    if [ "$2" -ne 0 ]; then
        say "the program was stopped, status $2" 2>>"$1/err"
        echo 4
    elif told "$1/err" 'the output cannot be written'; then
        echo 3
    elif told "$1/err" 'the input cannot be read' || grep -q '^usage: ' "$1/err"; then
        echo 2
    elif head -c 8 "$1/out" | grep -qx 'refused '; then
        echo 1
    else
        echo 0
    fi
}

# run_program ARGUMENT..
run_program() {
    build
    held=$(mktemp -d) || unwritten
    trap 'rm -rf "$held"' EXIT
    trap 'exit 4' HUP INT TERM
    "$top/host/start" "$top/target/bin/$name" "$@" >"$held/out" 2>"$held/err"
    status=$(judged "$held" $?)
    [ ! -s "$held/out" ] || cat "$held/out" 2>/dev/null || status=3
    [ "$status" -ne 3 ] || unwritten
    cat "$held/err" >&2
    exit "$status"
}
