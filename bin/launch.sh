# What the launchers share. A launcher sets `home` to the repository's folder, reads this file, calls `open_file FILE` where it
# is given one, and then `launch PROGRAM`.

fail() {
    echo "$(basename "$0"): $1" >&2
    exit "${2:-1}"
}

# Has the program read a file.
open_file() {
    if [ -d "$1" ] || [ ! -r "$1" ]; then
        fail "cannot read $1" 2
    fi
    exec <"$1"
}

# Each crate by itself, in the order of the layers, so that one sees how far it is. What the prover says of a crate is
# shown where it fails. `rt run` makes the program, and then runs it, here on an empty input.
build() {
    program=$1
    set --
    for crate in $(sed -n "s/^$program: //p" crates.txt) "$program"; do
        [ ! -d "crates/$crate" ] || set -- "$@" "$crate"
    done
    count=0
    for crate; do
        count=$((count + 1))
        echo "proving $crate, $count of $#" >&2
        command=lib
        [ "$crate" != "$program" ] || command=run
        if ! log=$(cd "crates/$crate" && rt "$command" </dev/null 2>&1); then
            printf '%s\n' "$log" >&2
            fail "$crate could not be proved and built"
        fi
    done
}

# A program is for x86-64. On another processor the kit's emulator runs it, with the kit's C library.
run() {
    if [ "$(uname -m)" = x86_64 ]; then
        "$1"
    else
        kit=$(dirname "$(rt doc)")
        tools=$kit/on/$(uname -m)/toolchain
        "$tools/bin/qemu-x86_64" "$tools/lib/ld-linux-x86-64.so.2" --library-path "$tools/lib" "$1"
    fi
}

# Whether a source of the repository is newer than a program. What rt makes stands in the folders named out.
is_old() {
    [ -n "$(find "$home/crates.txt" "$home"/crates/*/* -name out -prune -o -newer "$1" -print | head -n 1)" ]
}

# Runs the program, built first where it is not and again where a source is newer. What it says on standard error is what failed.
launch() {
    program=$home/crates/$1/out/$1
    if [ ! -x "$program" ] || is_old "$program"; then
        (cd "$home" && build "$1") || exit 1
        touch "$program"
    fi
    exec 3>&1
    status=0
    said=$(run "$program" 2>&1 >&3 3>&-) || status=$?
    [ -z "$said" ] || fail "$said"
    exit "$status"
}
