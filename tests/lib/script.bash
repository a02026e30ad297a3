# shellcheck shell=bash
# What the scripts of tests/ share: their help, the program that they try, and what they count. It is read by a script
# whose head is a comment, which --help prints.
root="$(cd -P -- "$(dirname -- "${BASH_SOURCE[0]}")/../.." && pwd)"
passed=0
failed=0
skips=0

case ${1-} in
    -h | --help)
        sed -n '2,/^[^#]/s/^# \{0,1\}//p' "$0"
        exit 0
        ;;
esac

# says of a test whether it held, by the word yes
says() {
    if [ "$1" = yes ]; then
        echo "ok: $2"
        passed=$((passed + 1))
    else
        echo "FAILED: $2"
        failed=$((failed + 1))
    fi
}

skipped() {
    echo "skipped: $1"
    skips=$((skips + 1))
}

# the last line, and the status that goes with it; where nothing was tried and nothing skipped, that is a failure
closes() {
    if [ "$skips" -eq 0 ]; then
        echo "$passed passed, $failed failed"
    else
        echo "$passed passed, $failed failed, $skips skipped"
    fi
    [ "$failed" -eq 0 ] && [ $((passed + skips)) -gt 0 ]
}

# a word that is a number, or what stands for it
number_or() {
    case ${1:-$2} in
        *[!0-9]*)
            echo "$0: '$1' is no number; --help says what the words are" >&2
            exit 2
            ;;
    esac
    echo "${1:-$2}"
}

# ends the script where a tool isn't there
needs_tools() {
    local tool
    for tool in "$@"; do
        if ! command -v "$tool" >/dev/null; then
            skipped "all of it: there is no $tool"
            closes
            exit
        fi
    done
}

# The program that is tried: $PROGRAM, or else the one that ./ghostrider runs, which builds it where it must. A script
# that has none fails.
find_program() {
    program="${PROGRAM-}"
    if [ -z "$program" ]; then
        program="$("$root/ghostrider" --which)" || program="the one of ./ghostrider"
    fi
    case $program in
        /*) ;;
        *) program="$PWD/$program" ;;
    esac
    if [ ! -x "$program" ] || [ ! -f "$program" ]; then
        says no "there is no program to try ($program)"
        closes
        exit
    fi
}
