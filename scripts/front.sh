# shellcheck shell=sh
# For kajurnat-salvage and kajurnat-figures: runs the program, which is proved, and tells what it cannot tell itself.

fail() {
    printf '%s\n' "${0##*/}: $*" >&2
    exit 1
}

# run ROOT PROGRAM TARGET [ARGUMENT..]: what the program says on standard error is left in `said`. If it cannot run, or does
# not come to its end, a line says so, and the exit code is 1. ROOT is where it is installed, or the repository, where
# `make TARGET` builds it.
run() {
    program=$1/libexec/kajurnat/$2
    [ -x "$program" ] || program=$1/target/bin/$2
    [ -x "$program" ] || fail "$program is not there: make $3 builds it"
    shift 3
    true 3>&2 || exit 1
    { true 3<&0; } 2>/dev/null || fail "standard input is closed"
    { true 3>&1; } 2>/dev/null || fail "standard output is closed"
    trap '' PIPE XFSZ # a reader that has gone, and a full file, are writes that fail, which the program tells
    exec 3>&1
    { said=$("$program" "$@" 2>&1 >&3 3>&-); code=$?; } 2>/dev/null
    exec 3>&-
    [ "$code" -le 128 ] || fail "the program was ended by signal $(kill -l "$code"); what it wrote may be cut off"
    [ "$code" -eq 0 ] || fail "the program did not run: $said"
}
