# shellcheck shell=bash
# The recording: FILE in place of standard input, and the options that its first line asks for.
#
# `given` has the command line's options, and `words` what the program gets: these, and those of the first line.

# Makes FILE the standard input, and takes the options of its first line.
open_file() {
    local shown=${1//[[:cntrl:]]/?}
    [ -e "$1" ] || fail "$no_input" "$shown: no such file"
    [ ! -d "$1" ] || fail "$no_input" "$shown: it is a folder"
    [ -r "$1" ] || fail "$no_input" "$shown: it may not be read"
    add_words_of_file "$1"
    { exec < "$1"; } 2> /dev/null || fail "$no_input" "$shown: it can't be opened"
}

# Adds the options that the first line of a recording asks for. Its words are parted at blanks, and nothing else is done
# to them. What isn't a plain file can be read only once, and is left to the program.
add_words_of_file() {
    local line asked
    [ -f "$1" ] || return 0
    IFS= read -r -n 257 line < "$1"
    [[ ${#line} -lt 257 && $line == '# iscsi-replay: '* ]] || return 0
    line=${line%$'\r'}
    IFS=' ' read -ra asked <<< "${line#'# iscsi-replay: '}"
    add_words "${asked[@]}"
}

# Adds words of a file's first line to the program's, but for the options that the command line has.
add_words() {
    local length
    while (($# > 0)); do
        length=$(option_length "$@")
        [[ $1 == --?* ]] && is_given "${1%%=*}" || words+=("${@:1:length}")
        shift "$length"
    done
}

# Whether the command line has this option.
is_given() {
    local word
    for word in "${given[@]}"; do
        [ "${word%%=*}" = "$1" ] && return 0
    done
    return 1
}
