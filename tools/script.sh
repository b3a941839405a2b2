# What the scripts in bash share, to be sourced behind a line that sets `script`, their name in messages: usage, one line for what is wrong, and
# a checkout that cannot be written to. tools/script.py is the same for those in Python.
die() { printf '%s: %s\n' "$script" "$*" >&2; exit 2; }

# Prints the comment at the script's head, which says how it is used.
usage() { awk 'NR > 1 { if (!/^#/) exit; sub(/^# ?/, ""); print }' "$0"; }

# helped WORDS: where the first is --help or -h, prints the usage and ends with 0.
helped() {
    case ${1:-} in
    --help | -h) usage; exit 0 ;;
    esac
}

# unasked WORDS: where there is a word, ends with one line that names it. For scripts that take none.
unasked() { [ $# = 0 ] || die "takes no words, and was given '$1' (--help says what it does)"; }

# writable ROOT: ends with one line where target/, which holds all that is built, cannot be written to.
writable() {
    mkdir -p "$1/target" 2>/dev/null && [ -w "$1/target" ] ||
        die "cannot write to $1/target, where all that is built goes: the checkout is read-only, or another user's"
}

# outdated ROOT FILE [MORE..]: whether FILE is not there, or older than what the crates are made from, or than one of MORE. What rt keeps in crates/*/out
# is no such thing.
outdated() {
    [ ! -e "$2" ] || [ -n "$(find "$1/crates.txt" "$1/crates" "${@:3}" -regex '.*/crates/[^/]*/out' -prune -o -type f -newer "$2" -print -quit)" ]
}

# left_by_ci ROOT: whether the libraries in crates/*/out are those that rt ci has proved and left there, and nothing has changed since. ./test dates target/proved to
# the start of a run that passed. A library of another command of rt has a stamp.
left_by_ci() { ! outdated "$1" "$1/target/proved" && ! compgen -G "$1/crates/*/out/rlib/stamp" >/dev/null; }

# below ROOT [CRATE]: the crate and the crates of crates.txt that it stands on, by name, or all; nothing if there is no such crate.
below() {
    awk -v wanted="${2:-}" '
        { sub(/#.*/, ""); if (split($0, halves, ":") < 2) next; split(halves[1], words, " "); uses[words[1]] = halves[2] }
        END {
            if (wanted == "") for (name in uses) print name
            if (!(wanted in uses)) exit
            todo[count = 1] = wanted; found[wanted] = 1
            for (at = 1; at <= count; at++) {
                print todo[at]
                many = split(uses[todo[at]], names, " ")
                for (i = 1; i <= many; i++) if (names[i] in uses && !(names[i] in found)) { found[names[i]] = 1; todo[++count] = names[i] }
            }
        }' "$1/crates.txt"
}

# kit: the folder of the kit that rt belongs to.
kit() { dirname "$(dirname "$(readlink -f "$(command -v rt)")")"; }

# status NUMBER COMMAND..: says so, and fails, where the command does not end with this exit status. For tests.
status() {
    local wanted=$1 got=0
    shift
    "$@" || got=$?
    [ "$got" = "$wanted" ] || { echo "exit status $got instead of $wanted: $*"; return 1; }
}
