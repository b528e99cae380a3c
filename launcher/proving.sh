# shellcheck shell=bash
# Proving the program's crates and building the program, with news on standard error.
#
# `root`, `crates`, `built` and `kept` are those of choose_program in program.sh, `cpu` is the processor or nothing, and
# `log` has rt's lines.

# Proves and builds the program and keeps it, or waits for another script that does.
prove() {
    local not_writable="the folder $top can't be written to" log=$kept.log
    command -v rt > /dev/null || fail "$not_built" "the Rattle kit's command rt isn't on the PATH"
    mkdir -p "${kept%/*}" 2> /dev/null || fail "$not_built" "$not_writable"
    # Where nobody reads standard error, the proof goes on.
    trap '' PIPE
    lock
    if find_program && [ "$proved" = here ]; then
        tell "the program is proved and built already"
    else
        prove_anew
    fi
    unlock
}

# Proves the crates, builds the program and keeps it. Sources may change meanwhile, so they are summed before and after.
prove_anew() {
    local was
    was=$(basis) || fail "$not_built" "rt version doesn't say which kit this is"
    [ "$root" = "$top" ] || copy_sources 2> /dev/null ||
        fail "$not_built" "the sources could not be copied to $root"
    : 2> /dev/null > "$log" || fail "$not_built" "$not_writable"
    SECONDS=0
    prove_crates
    [ -x "$built" ] || fail "$not_built" "rt left no program in $built; $log says more"
    [ "$(basis)" = "$was" ] || fail "$not_built" "a source or the kit changed while the program was proved; run it again"
    keep "$was" 2> /dev/null || fail "$not_built" "the program could not be kept in ${kept%/*}"
    tell "the program is proved and built $(elapsed)"
}

# Copies what the program is made of, and at the first time also what earlier proofs left: they are the same for every
# processor.
copy_sources() {
    local from to part
    mkdir -p "$root" || return
    [ -d "$root/crates" ] || cp -a "$top/crates" "$root/" || return
    for from in "$top"/crates/*/; do
        from=${from%/}
        to=$root/crates/${from##*/}
        mkdir -p "$to" || return
        for part in src specs proofs; do
            rm -rf "${to:?}/$part"
            [ ! -d "$from/$part" ] || cp -a "$from/$part" "$to/" || return
        done
    done
    cp "$top/HANDLES" "$top/crates.txt" "$root/"
}

# Proves the crates, the lowest first, and some beside one another: each begins once all below it are built, so that rt
# makes no quick pass over all sources first. `waiting` are still to begin, and `running` are under way.
prove_crates() {
    local waiting=("${crates[@]}") running=() begun=0 most failed='' name status ended
    most=$(at_once)
    # As rt ends with a crate, the name and the status come by this pipe.
    exec {ended}<> <(:)
    while ((${#waiting[@]} + ${#running[@]} > 0)); do
        begin_crates
        if read -r -t 60 -u "$ended" name status; then
            end_crate "$name" "$status"
        else
            tell "still proving ${running[*]} $(elapsed)"
        fi
    done
    exec {ended}>&-
    [ -z "$failed" ] || fail "$not_built" "$failed was not proved; $log says more"
}

# How many crates at once: three at the most, with a processor and 6 GB of memory for each.
at_once() {
    local most=3 limit
    for limit in "$(nproc)" "$(awk '$1 == "MemAvailable:" { print int($2 / 6000000) }' /proc/meminfo)"; do
        [ "${limit:-0}" -ge "$most" ] || most=${limit:-0}
    done 2> /dev/null
    echo $((most > 1 ? most : 1))
}

# Begins with each crate that waits for no other one, as long as there is a place for it.
begin_crates() {
    local name left=()
    for name in "${waiting[@]}"; do
        if ((${#running[@]} == most)) || waits "$name"; then
            left+=("$name")
            continue
        fi
        begun=$((begun + 1))
        running+=("$name")
        tell "proving $name, $begun of ${#crates[@]} $(elapsed)"
        prove_crate "$name" &
    done
    waiting=("${left[@]}")
}

# Whether a crate below this one isn't built yet.
waits() {
    local low below
    read -ra below < <(awk -F: -v name="$1" '$1 == name { print $2 }' "$top/crates.txt")
    for low in "${below[@]}"; do
        [[ " ${waiting[*]} ${running[*]} " != *" $low "* ]] || return 0
    done
    return 1
}

# Has rt prove a crate in its folder, and tells how it ended. An interrupt is rt's, too, as if it ran in the foreground.
prove_crate() {
    local how=(lib)
    [ "$1" != iscsi_replay ] || how=(run ${cpu:+--cpu="$cpu"} -- --help)
    trap - INT QUIT
    (cd "$root/crates/$1" && trap - PIPE && exec rt "${how[@]}" > "$log.$1" 2>&1 < /dev/null)
    echo "$1 $?" >&"$ended"
}

# Takes in how rt ended with a crate. Its lines go to the log, and after a failure no other crate begins.
end_crate() {
    local name still=()
    for name in "${running[@]}"; do [ "$name" = "$1" ] || still+=("$name"); done
    running=("${still[@]}")
    cat "$log.$1" >> "$log"
    if [ "$2" != 0 ]; then
        tail -n 20 "$log.$1" >&2
        waiting=() failed=${failed:-$1}
    fi
    rm -f "$log.$1"
}

# Does something, and tells each minute what it is. The pipe has no words: its end says that the work has ended.
during() {
    ("${@:2}" 3>&1) | {
        while IFS= read -r -t 60; [ "$?" -gt 128 ]; do
            tell "still $1 $(elapsed)"
        done
    }
    return "${PIPESTATUS[0]}"
}

# How long it has gone on.
elapsed() {
    echo "($((SECONDS / 60)) min $((SECONDS % 60)) s)"
}
