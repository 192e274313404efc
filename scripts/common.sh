# shellcheck shell=bash
# For the scripts here: their arguments, the tools they need, and ending what they start. `--help` prints the comment at a
# script's head.

# ends the script at --help, and at any argument after the first COUNT
take_arguments() { # COUNT "$@"
    local count=$1 arg
    shift
    for arg; do
        case $arg in
        --help)
            sed -n '2,/^[^#]/s/^# \{0,1\}//p' "$0"
            exit 0
            ;;
        -*) refuse "unknown option '$arg'" ;;
        esac
    done
    [[ $# -le $count ]] || refuse "unexpected argument '${*:count+1:1}'"
    [[ $# -ge $count ]] || refuse "an argument is missing"
}

refuse() {
    echo "scripts/$(basename "$0"): $*; --help tells more" >&2
    exit 2
}

fail() {
    echo "scripts/$(basename "$0"): $*" >&2
    exit 1
}

# ends the script if one of the tools is not there, and names all that are not
need() { # TOOL..
    local tool missing=()
    for tool; do command -v "$tool" >/dev/null || missing+=("$tool"); done
    ((${#missing[@]})) || return 0
    echo "scripts/$(basename "$0"): not on PATH: ${missing[*]} (rt is the Rattle toolchain; cc and c++ are gcc's)" >&2
    exit 2
}

# Runs the command in a process group of its own, which ends with the script: rt starts its provers so that they ignore the
# interrupt from a terminal.
group=''
in_group() { # COMMAND..
    local code=0
    set -m
    ("$@") </dev/null &
    group=$!
    set +m
    wait "$group" || code=$?
    group=''
    return "$code"
}

# at the script's end, and at an interrupt: ends that group, and removes the files
leave() { # FILE..
    [[ -z $group ]] || kill -TERM -- "-$group" 2>/dev/null || true
    rm -rf "$@"
}
trap 'exit 130' INT
trap 'exit 143' TERM
trap 'exit 129' HUP

# ---- tests of the programs ----

# The command has to end with exit code 1 and one line on standard error, which has SAYS in it.
refused=0
must_refuse() { # WHAT SAYS COMMAND..
    local what=$1 says=$2 code=0
    shift 2
    "$@" 2>said || code=$?
    ((code == 1)) || fail "$what: exit code $code"
    [[ $(wc -l <said) == 1 && $(<said) == *"$says"* ]] || fail "$what: it says '$(<said)'"
    refused=$((refused + 1))
}

# Builds what reads and writes are made to fail with: ./reset and ./signals.so.
build_faults() { # FOLDER of the sources
    cc -std=c11 -D_DEFAULT_SOURCE -Wall -Wextra -Werror -o reset "$1/reset.c"
    cc -std=c11 -Wall -Wextra -Werror -shared -fPIC -o signals.so "$1/signals.c"
}

# Runs the command, with a fault in the program that it starts.
with_fault() { # FAULT PROGRAM COMMAND..
    env LD_PRELOAD="$PWD/signals.so" FAULT="$1" FAULT_IN="$2" "${@:3}"
}
