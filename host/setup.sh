# To be read by the scripts that build C and Rust programs over the card's library, from the repository's
# top folder. It builds the library, where it is not built yet of what stands here, and sets
#   CC, RUSTC   compilers for x86-64 Linux, with their flags (the library is for x86-64)
#   RUN         what an x86-64 program is run with: nothing on x86-64, an emulator elsewhere
#   OUT         the folder that programs are built in
#   LIBRARY     the library
# What is missing it installs from Debian's packages, as root, and otherwise says. Where it cannot build it ends with
# status 4.
. host/built.sh

OUT=target/host
mkdir -p "$OUT"
has_rt

# install PACKAGE..
install() {
    if [ "$(id -u)" -ne 0 ] || ! command -v apt-get >/dev/null 2>&1; then
        echo "setup: missing; on Debian, as root: apt-get install $*" >&2
        exit 4
    fi
    echo "setup: installing $*" >&2
    for pause in 5 20 0; do
        { apt-get update && DEBIAN_FRONTEND=noninteractive apt-get install -y --no-install-recommends "$@"; } >"$OUT/apt.log" 2>&1 && return
        sleep "$pause"
    done
    tail -5 "$OUT/apt.log" >&2
    exit 4
}

# wants COMMAND PACKAGE..: puts the packages on the list where the command is not there; `provide` installs the list.
wanted=
wants() {
    command -v "$1" >/dev/null 2>&1 && return
    shift
    wanted="$wanted $*"
}
provide() {
    # shellcheck disable=SC2086
    [ -z "$wanted" ] || install $wanted
    wanted=
}

wants python3 python3
static='-C target-feature=+crt-static'
if [ "$(uname -m)" = x86_64 ]; then
    wants cc gcc libc6-dev
    wants rustc rustc
    CC='cc -static'
    RUSTC="rustc --edition 2021 $static"
    RUN=
else
    wants qemu-x86_64 qemu-user
    wants x86_64-linux-gnu-gcc gcc-x86-64-linux-gnu
    # Debian's rustc, beside which its library for x86-64 can be installed: another may have none.
    [ -d /usr/lib/rustlib/x86_64-unknown-linux-gnu/lib ] ||
        wanted="$wanted rustc-web libstd-rust-web-dev:amd64 libc6-dev:amd64"
    [ -z "$wanted" ] || [ "$(id -u)" -ne 0 ] || dpkg --add-architecture amd64
    CC='x86_64-linux-gnu-gcc -static'
    RUSTC="/usr/bin/rustc --edition 2021 --target x86_64-unknown-linux-gnu -C linker=x86_64-linux-gnu-gcc $static"
    RUN=qemu-x86_64
fi
provide

build_library

# build_c SOURCE PROGRAM, build_rust SOURCE PROGRAM MODULE..: a program over the library, where it is not built yet of
# what stands here.
build_c() {
    is_made "$2" "$CC" "$1" include/card.h "$LIBRARY" || {
        $CC -std=c99 -O2 -Wall -Wextra -Werror -Iinclude "$1" "$LIBRARY" -o "$2" || exit 4
        note_made "$2" "$CC" "$1" include/card.h "$LIBRARY"
    }
}
build_rust() {
    source=$1
    program=$2
    shift 2
    is_made "$program" "$RUSTC" "$source" "$@" "$LIBRARY" || {
        $RUSTC -C opt-level=3 -D warnings -L native=target/staticlib -l static=card "$source" -o "$program" || exit 4
        note_made "$program" "$RUSTC" "$source" "$@" "$LIBRARY"
    }
}
