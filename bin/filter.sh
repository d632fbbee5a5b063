# For a script that stands in the repository's folder and sources it, of a program that reads standard input: bin/atread and bin/atlist, which print a report, and bin/atsay.
# It has set `name`, the program's; `usage`, its line of usage; and `help`. These programs end in 0 whatever they heard: the script makes the status from what was said.
. bin/program.sh

# fail WHY: ends the script, which says as the program what is wrong.
fail() {
    printf '%s: %s\n' "$name" "$1" >&2
    exit 1
}

# The version's one home is where cargo wants it.
version() {
    sed -n "s/^version = \"\(.*\)\"/$name (Walumbeex) \1/p" bindings/rust/Cargo.toml
}

# show TEXT: prints it, or fails.
show() {
    printf '%s\n' "$1" 2>/dev/null || fail 'standard output could not be written'
}

# wrong WHY: ends the script for wrong usage.
wrong() {
    printf '%s: %s; %s\n' "$name" "$1" "$usage" >&2
    exit 2
}

# about WORD..: --help and --version are answered and end the script.
about() {
    { : 3>&1; } 2>/dev/null || fail 'standard output is closed'
    case $* in
        --help | --version)
            [ "$1" = --help ] || help=$(version)
            show "$help"
            exit
            ;;
    esac
}

# take_words WORD..: the same, and any other word is wrong usage.
take_words() {
    about "$@"
    [ $# -eq 0 ] || wrong "it takes no words, and got \"$*\""
}

# ready: sees that standard input is open, and proves the program.
ready() {
    { : 3<&0; } 2>/dev/null || fail "standard input is closed; $usage"
    command -v rt >/dev/null || fail 'no rt here: this needs the Rattle kit (its command rt on the PATH)'
    prove "$name" "$name" </dev/null || exit 1
    [ ! -t 0 ] || printf '%s: reading what is typed, until Ctrl-D\n' "$name" >&2
}

# ended STATUS: fails where the program did, or, by status 100, standard input could not be read.
ended() {
    case $1 in
        0) ;;
        100) fail "standard input can not be read; $usage" ;;
        *) fail 'the program ended before it was done' ;;
    esac
}

# ask MOST: proves the program and sets `said` to what it says of standard input, of which it gets at most so many bytes.
ask() {
    ready
    said=$(head -c "$1" 2>/dev/null | start "$name"; exit $((PIPESTATUS[0] ? 100 : PIPESTATUS[1])))
    ended $?
}
