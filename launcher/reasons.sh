# shellcheck shell=bash
# The reasons of --explain: why the program refused its input.
#
# `input` is the file that it read, and `number` the number of the refused line. Each why_no_X prints the reason for
# which its words are no X, or nothing where they are one.
readonly without_connections="this is a report without the conn lines of its recording, which must stand before it"

# The reason of a fault line, or nothing.
why() {
    local number=0 capture
    capture=$(kind_of_capture "$input")
    if [ -n "$capture" ]; then
        echo "the input is a capture of packets ($capture), and no recording"
    elif [[ $1 =~ ^iscsi-replay:\ line\ ([0-9]+):\ (not a line of a recording|longer than 256 bytes)$ ]]; then
        number=${BASH_REMATCH[1]}
        if [[ ${BASH_REMATCH[2]} == not* ]]; then why_bad_line; else why_long_line; fi
    elif [ "$1" = "iscsi-replay: no connection line" ]; then
        why_no_connection
    fi
}

# Why the input has no connection: it is empty, or a report.
why_no_connection() {
    if [ ! -s "$input" ]; then
        echo "the input is empty"
    elif grep -a -q '^> ' "$input"; then
        echo "$without_connections"
    fi
}

# How long a line is that is too long.
why_long_line() {
    local line most=65536
    line=$(line_of_input "$number" "$((most + 1))")
    if [[ $line == *$'\r'* ]]; then
        echo "it has carriage returns, and a line is ended by LF alone"
    elif ((${#line} > most)); then
        echo "it has more than $most bytes"
    else
        echo "it has ${#line} bytes"
    fi
}

# Why a line is none of a recording: by its blanks, or else by its fields.
why_bad_line() {
    local line fields
    line=$(line_of_input "$number" 257)
    case $line in
        *$'\r') echo "a carriage return stands at its end, and a line is ended by LF alone" ;;
        *$'\t'*) echo "a tab stands in it, and fields are parted by a blank" ;;
        *'  '*) echo "two blanks stand together in it, and fields are parted by one" ;;
        *' ') echo "a blank stands at its end" ;;
        *)
            IFS=' ' read -ra fields <<< "$line"
            why_no_fields "${fields[@]}"
            ;;
    esac
}

# The reason by the fields of a line, which are parted by single blanks. The first of a report's event is '>'.
why_no_fields() {
    local kind=$1 of_report=no
    if [ "$kind" = '>' ]; then
        of_report=yes
        [[ ${2-} == [CD] ]] || { echo "behind '> ' there is a C or a D line"; return; }
        shift
        kind=$1
    fi
    case $kind in
        conn | C | D) ;;
        *)
            echo "a line begins with conn, C, D, '> ', # or a blank, or is empty"
            return
            ;;
    esac
    [ "$#" = 3 ] || { echo "a $kind line has 3 fields, and this one has $#"; return; }
    case $kind in
        conn) why_no_conn "$2" "$3" ;;
        C) why_no_arrival "$2" "$3" "$of_report" ;;
        D) why_no_completion "$2" "$3" ;;
    esac
}

# The CID and the StatSN of a conn line.
why_no_conn() {
    local line
    why_no_number CID "$1" 65535 || why_no_digits StatSN "$2" 8 && return
    line=$(line_before '^(> )?[CD] ')
    [ -z "$line" ] || { echo "conn lines stand before all events, and line $line is an event"; return; }
    line=$(line_before "^conn $1 ")
    [ -z "$line" ] || { echo "line $line has a connection with CID $1 already"; return; }
    [ "$(lines_before | grep -a -c '^conn ')" -lt 64 ] ||
        echo "a session has 64 connections at most, and this is the 65th"
}

# The CID and the header of a C line, and whether it is a report's.
why_no_arrival() {
    why_no_number CID "$1" 65535 || why_no_digits header "$2" 96 && return
    if [ "$3" = yes ] && [ -z "$(line_before '^conn ')" ]; then
        echo "$without_connections"
    elif [ -z "$(line_before "^conn $1 ")" ]; then
        echo "no conn line before it has CID $1"
    fi
}

# The ticket and the status of a D line.
why_no_completion() {
    why_no_number ticket "$1" 18446744073709551615 || why_no_digits status "$2" 2
}

# The name of a field, its digits, and the greatest number that it may have. Its status is 1 where nothing is wrong.
why_no_number() {
    if [[ ! $2 =~ ^[0-9]+$ ]]; then
        echo "the $1 isn't made of decimal digits"
    elif [[ $2 == 0?* ]]; then
        echo "the $1 has leading zeros"
    elif ((${#2} > ${#3})) || [[ ${#2} = "${#3}" && $2 > $3 ]]; then
        echo "the $1 is above $3"
    else
        return 1
    fi
}

# The name of a field, its hexadecimal digits, and how many it must have. Its status is 1 where nothing is wrong.
why_no_digits() {
    local others=${2//[0-9A-Fa-f]/} parity=""
    if [ -n "$others" ]; then
        echo "the $1 has a byte that is no hexadecimal digit, $(printf '%02x' "'${others:0:1}")"
    elif [ "${#2}" != "$3" ]; then
        ((${#2} % 2 == 0)) || parity=", an odd number"
        echo "the $1 has ${#2} hexadecimal digits$parity, and must have $3"
    else
        return 1
    fi
}

# Which form of a capture a plain file has, or nothing.
kind_of_capture() {
    [ -f "$1" ] || return 0
    case $(head -c 12 "$1" 2> /dev/null | od -An -v -tx1 | tr -d ' \n') in
        d4c3b2a1* | a1b2c3d4* | 4d3cb2a1* | a1b23c4d*) echo pcap ;;
        0a0d0d0a????????1a2b3c4d | 0a0d0d0a????????4d3c2b1a) echo pcapng ;;
    esac
}

# A line of the input, of which no more than this many bytes are looked at. Zeros can't be kept: they are bytes 01.
line_of_input() {
    tail -n "+$1" "$input" | head -c "$2" | head -n 1 | tr '\0' '\1'
}

# The lines before the refused one: they are good.
lines_before() {
    head -n "$((number - 1))" "$input"
}

# The number of the first line before the refused one that fits, or nothing.
line_before() {
    lines_before | grep -a -n -m 1 -E "$1" | cut -d : -f 1
}
