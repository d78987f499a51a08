# What ./caesar and the tools know of the built program, for shells whose `top` is the root of the repository.
out=$top/crates/caesar/out
program=$out/caesar

# These files and all below these folders, each with its number, its size and the times of its last changes.
state_of() {
    (cd "$top" && find "$@" -printf '%p %i %s %T@ %C@\n') 2>&1
}

# Whether the program, its sources, definitions and proofs are as they were when a build succeeded.
is_built() {
    [ -x "$program" ] && read -r folders 2>/dev/null <"$out/folders" &&
        state_of crates/caesar/out/caesar crates.txt $folders | cmp -s - "$out/built"
}

# What the program writes if the arguments are not a valid command. The text is in a test case, which the full check compares with the program.
usage_line() {
    sed -n '/^usage: caesar /{p;q;}' "$top/tests/cases/words.cases"
}

# Whether the arguments after a usage line are not a valid command, by that line: it has each command with its arguments, in capitals, between bars.
is_no_command() {
    forms=${1#usage: caesar }
    shift
    for word; do
        case $word in '' | -*) return 0 ;; esac
    done
    name=${1-} count=$# blank=$IFS
    set -f
    IFS='|'
    set -- $forms
    IFS=$blank
    for form; do
        set -- $form
        [ "$1" != "$name" ] || [ $# != "$count" ] || return 1
    done
    return 0
}

# Ends as the program would if the arguments are not a valid command.
answer_usage() {
    usage=$(usage_line)
    if [ -n "$usage" ] && is_no_command "$usage" "$@"; then
        printf '%s\n' "$usage" || exit 6
        exit 4
    fi
}

tell() {
    printf '%s\n' "$1" >&2
}
