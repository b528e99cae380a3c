# Recordings that are replayed with threads, and what must hold of the reports: for tests/run and tests/by-hand/threads-soak.
# They have $program and $work, and are in the folder tests.

# Where the program can be held to one processor, the words for it.
one_processor=()
taskset -c 0 true 2> /dev/null && one_processor=(taskset -c 0)

# Makes the recording of a number, and its words. Numbers that follow one another have all connections, units, windows,
# ends and so on in turn, and in the long run in all combinations, as the moduli have no common factor.
make_threads() {
    local number=$1
    local conns=(1 2 4 8) units=(1 3 16) windows=(1024 1024 1024 4 1024) ends=(none session now none each other session)
    local firsts=(00000001 ffffff80 7fffffc0 fffffffe 00000000 80000000 12345678 0000ffff ffffffff)
    local numbers=(230 40 3 200 160 1 220 120 210 30 90)
    local window=${windows[number % 5]} first=${firsts[number % 9]}
    conns=${conns[number % 4]} units=${units[number / 4 % 3]}
    awk -v seed="$number" -v conns="$conns" -v units="$units" -v numbers="${numbers[number % 11]}" \
        -v window="$window" -v first="$first" -v end="${ends[number % 7]}" -f lib/threads/recording.awk > "$work/recording"
    threads_words=(--first "$first" --window "$window" --units "$units")
    ((number * 5 % 13 < 4)) && threads_words+=(--depth 4)
    ((number * 7 % 17 < 9)) && threads_words+=(--level 2)
    return 0
}

# Replays the recording with threads, on any processor (free) or on one (held).
replay_threads() {
    local hold=()
    [ "$1" = held ] && hold=("${one_processor[@]}")
    timeout 60 "${hold[@]}" "$program" --threads "${threads_words[@]}" < "$work/recording" > "$work/out" 2> "$work/err"
}

# What is wrong with a replay that ended with this status; nothing, if all is well.
judge_threads() {
    local wrong="" said
    if [ "$1" = 124 ]; then
        echo "it didn't end"
        return
    fi
    [ "$1" = 0 ] || wrong="; status $1"
    [ -s "$work/err" ] && wrong="$wrong; a text on standard error"
    said=$(awk -v first="${threads_words[1]}" -f lib/threads/check.awk "$work/recording" "$work/out" 2>&1) || said="no check; $said"
    [ -n "$said" ] && wrong="$wrong; $said"
    { grep '^conn ' "$work/recording"; cat "$work/out"; } > "$work/journal"
    timeout 60 "$program" "${threads_words[@]}" < "$work/journal" > "$work/again" 2> "$work/again.err" || wrong="$wrong; its report can't be read again"
    cmp -s "$work/out" "$work/again" || wrong="$wrong; its report read again gives another one"
    echo "${wrong#; }"
}
