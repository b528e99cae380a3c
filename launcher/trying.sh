# shellcheck shell=bash
# The answer where no program is built: rt try compiles the crates unproved, and runs what comes of them once.
#
# `words` are the program's words, and standard input is the recording.

# The greatest report that rt try gives, the greatest input that it reads, and the seconds that the run may take.
readonly most_report=1048576 most_input=67108863 most_seconds=300

# Answers a recording and ends. The last line on standard error says each time that this is not proved.
try_program() {
    command -v rt > /dev/null ||
        fail "$not_built" "no program is built, and the Rattle kit's command rt isn't on the PATH"
    [ "$root" = "$top" ] || fail "$not_built" "no program for this processor is built, and rt try knows no --cpu; $to_prove"
    work=$(mktemp -d) || fail "$not_copied" "no folder for a copy of the input could be made"
    trap 'rm -rf "$work"' EXIT
    input=$work/input
    copy_all
    is_small || fail "$not_built" "no program is built, and this recording is too large for rt try; $to_prove"
    tell "no program is built; rt try answers, in about a minute"
    SECONDS=0
    during "waiting for rt try" answer_by_rt
    judge "$?"
}

# Runs rt. It prints all at its end.
answer_by_rt() {
    cd "$crate" && exec rt try --seconds "$most_seconds" -- "${words[@]}" < "$input" > "$work/report" 2> "$work/said"
}

# Copies standard input: rt would take a pipe for ended that is silent for two seconds. For the help nothing is read.
copy_all() {
    if asks_help; then
        : > "$input"
    elif [ ! -e /dev/fd/0 ]; then
        fail "$fault" "the input could not be read"
    else
        copy_input "$((most_input + 1))" || fail "$fault" "the input could not be read"
    fi
}

# Whether rt try can take the input, and its report has a chance to be small: it has each event's line and more.
is_small() {
    (($(wc -c < "$input") <= most_input)) &&
        (($(LC_ALL=C grep -a -E '^(> )?[CD] ' "$input" | wc -c) <= most_report))
}

# Judges what rt try ended with. Its statuses are those of the program and its own, and its last line tells them apart.
judge() {
    local last
    last=$(tail -n 1 "$work/said")
    case $last in
        "run=ended status=$1 "*"proved=no") give "$1" ;;
        "run=no-answer "*)
            # Among the other lines is half a report.
            grep -a '^checked: ' "$work/said" >&2
            fail "$not_built" "rt try gave no answer within its limits, 1 MiB of report and $most_seconds seconds; $to_prove"
            ;;
    esac
    (($1 < 128)) || exit "$1"
    cat "$work/said" >&2
    fail "$not_built" "rt try gave no answer; $to_prove"
}

# Gives the program's output, its own words and its status.
give() {
    local status=$1
    if ! cat "$work/report" 2> /dev/null; then
        status=$fault
        echo "iscsi-replay: the output could not be written" > "$work/said"
    fi
    own_words >&2
    say_more "$status" || status=$fault
    tell "not proved here; $to_prove"
    exit "$status"
}

# What the program itself wrote on standard error: it stands before the words of rt, of which the first is `checked:`.
own_words() {
    local at
    at=$(grep -a -n '^checked: ' "$work/said" | tail -n 1 | cut -d : -f 1)
    if [ -n "$at" ]; then head -n "$((at - 1))" "$work/said"; else grep -a -v '^run=ended ' "$work/said"; fi
}
