# shellcheck shell=bash
# Running the program: as it is, or so that --explain can say why it refused its input.
#
# `kept` is the program, `words` are its words, and `input` is the recording's file.

# Becomes the program; or runs it, where this script has something to say behind it.
run() {
    local status
    [ -z "${work-}" ] || rm -rf "$work"
    if ! asks_help && [ -z "$(kind_of_capture "$named")" ]; then exec "$kept" "${words[@]}"; fi
    "$kept" "${words[@]}"
    status=$?
    say_more "$status" || status=$fault
    exit "$status"
}

# Says behind the program's words what this script has to say: its own help, or which tool reads a capture. Its status is 1 where the
# help can't be written.
say_more() {
    if asks_help; then
        [ "$1" != 0 ] || tell_help 2> /dev/null || { tell "the output could not be written"; return 1; }
    elif [ "$1" = "$fault" ] && [ -n "$(kind_of_capture "$named")" ]; then
        tell "${named//[[:cntrl:]]/?} is a capture ($(kind_of_capture "$named")): tools/look makes pages of it, and tools/capture recordings"
    fi
}

# Whether the program is asked for its help.
asks_help() {
    is_given --help || is_given -h
}

# The help of this script.
tell_help() {
    cat << 'END'

The script iscsi-replay adds to the program:

  FILE                 the recording, in place of standard input; options in its first line, `# iscsi-replay: ..`, hold
      --explain        say also why the input is refused
      --version        print the commit, the kit and where the program was proved, and end
      --cpu x86-64-v3  as the first word: the program for these processors
      --built          never answer by `rt try`, which proves nothing, where no program is built
      --where          print where the built program stands, and end
      --prove          prove and build the program, and end
END
}

# Runs the program, and then says why it refused its input.
run_explained() {
    local status line reason
    work=$(mktemp -d) || fail "$not_copied" "no folder for a copy of the input could be made"
    trap 'rm -rf "$work"' EXIT
    if [ ! -f "$input" ]; then
        input=$work/input
        copy_all_lines
    fi
    "$kept" "${words[@]}" < "$input" 2> "$work/fault"
    status=$?
    cat "$work/fault" >&2
    export LC_ALL=C
    if [ "$status" = "$fault" ]; then
        IFS= read -r line < "$work/fault"
        reason=$(why "$line")
        [ -z "$reason" ] || tell "reason: $reason"
        say_more "$status"
    fi
    exit "$status"
}

# Whether the program's words let it read, and there is an input. A closed one must be left alone, lest a pipe take its
# place.
reads_input() {
    "$kept" "${words[@]}" < /dev/null > /dev/null 2>&1
    [ "$?" = "$fault" ] && [ -e /dev/fd/0 ]
}

# Copies standard input as far as the program would read it: all lines that there can be, and one byte more. Where
# nothing can be read, the program says so.
copy_all_lines() {
    copy_input "$((1048576 * 257 + 1))" && return
    [ -s "$input" ] || run
    fail "$fault" "the input could not be read"
}

# Copies no more than this many bytes of standard input to the file `input`. Its status is 1 where they can't be read.
copy_input() {
    local said
    said=$(LC_ALL=C head -c "$1" 2>&1 > "$input") && return
    [[ $said == *reading* ]] || fail "$not_copied" "standard input could not be copied to $work"
    return 1
}
