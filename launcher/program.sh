# shellcheck shell=bash
# What is built and kept, the program or the archive for C: where it stands, and whether it is that of the sources as they are,
# and of this kit.
#
# choose_program and choose_archive set `root`, `crates`, `sources`, `crate`, `built`, `kept`, `stamp` and `seen`, and find_kept
# sets `proved`, which says where it was proved: here or elsewhere.

# The places of the program for a processor, and of what it is made of.
choose_program() {
    root=$top${1:+/out/$1} crate=$top${1:+/out/$1}/crates/iscsi_replay
    built=$crate/out/iscsi_replay
    choose iscsi_replay "$top/out/bin/iscsi_replay${1:+-$1}"
}

# Those of the archive. It has no program, but is kept as one is.
choose_archive() {
    root=$top crate=$top/crates/iscsi_c
    built=$crate/out/libiscsi_c.a
    choose iscsi_c "$top/out/lib/libiscsi_c.a"
}

# What a crate makes is kept there, and is of that crate and those below it.
choose() {
    local name part
    kept=$2
    mapfile -t crates < <(crates_of "$1")
    sources=(crates.txt)
    for name in "${crates[@]}"; do
        for part in src specs proofs; do
            [ ! -d "$top/crates/$name/$part" ] || sources+=("crates/$name/$part")
        done
    done
    # Nothing tells of what sources it is what stands in the crate. So a copy is kept, with a stamp that does, and none but
    # this copy is taken. The gate, too, takes crates/*/out away.
    stamp=$kept.stamp seen=$kept.seen
}

# The crates that a crate is made of, the lowest first, and it last. crates.txt has the lowest first.
crates_of() {
    awk -F: -v top="$1" '
        !/^#/ { sub(/ .*/, "", $1); name[++count] = $1; below[count] = $2 }
        END {
            used[top]
            for (at = count; at > 0; at--)
                if (name[at] in used) { split(below[at], names, " "); for (one in names) used[names[one]] }
            for (at = 1; at <= count; at++) if (name[at] in used) print name[at]
        }' "$top/crates.txt"
}

# Finds the program to run, if one is kept that was proved of the sources as they are.
find_program() {
    [ -x "$kept" ] && find_kept
}

# Finds what is kept, if it was proved so. The sums are spared where nothing was written since they were taken last.
find_kept() {
    local now lines
    [ -f "$kept" ] && [ -r "$stamp" ] || return 1
    mapfile -t lines < "$stamp"
    now=$(listing)
    if [ -z "$now" ] || [ "$now" != "$(cat "$seen" 2> /dev/null)" ]; then
        is_stamped "${lines[@]}" || return 1
        is_at_rest && remember "$now"
    fi
    proved=elsewhere
    [ -z "${lines[2]-}" ] || [ "${lines[2]}" != "$(place)" ] || proved=here
}

# Whether the lines of the stamp are those of the sources, the kit and the kept program. Where there is no kit, any will do.
is_stamped() {
    local now
    [ "${1-}" = "$(sum_of_sources)" ] && [ "${4-}" = "$(sum_of "$kept")" ] || return 1
    now=$(kit)
    [ "${now:-${2-}}" = "${2-}" ]
}

# A sum of the names of all that the stamp speaks of, and of when each was changed: its content, its times or its name.
# Unlike the time of the content, nobody sets this one back. Of the kit it has rt's folder and the files that name the kit.
# Nothing is printed where `find` can't tell it.
listing() {
    local rt files=("${sources[@]}" "$kept" "$stamp")
    rt=$(readlink -f -- "$(command -v rt)") && files+=("${rt%/*}" "${rt%/*/*}"/{KIT-ID,WHAT})
    (
        cd "$top" || exit
        find "$kept" -printf '' && find "${files[@]}" -printf '%p %y %i %s %C@\n' | sha256sum
    ) 2> /dev/null
}

# Keeps the listing at which the stamp held, if that can be written.
remember() {
    { echo "$1" > "$seen.$$" && mv -f "$seen.$$" "$seen"; } 2> /dev/null || rm -f "$seen.$$"
}

# Whether nothing was written in the last seconds. What is written twice in one tick of the clock has one time.
is_at_rest() {
    local young
    young=$(cd "$top" && find "${sources[@]}" "$kept" "$stamp" -newerct '2 seconds ago' -print -quit 2>&1)
    [ -z "$young" ]
}

# A checksum of all that the program is proved and built of.
sum_of_sources() {
    (cd "$top" && find "${sources[@]}" -type f -print0 2> /dev/null | LC_ALL=C sort -z | xargs -0 sha256sum | sha256sum)
}

# A file's checksum.
sum_of() {
    sha256sum < "$1"
}

# The kit's line, or nothing where there is none.
kit() {
    rt version 2> /dev/null < /dev/null
}

# What a proof is of: the checksum of the sources and the kit's line.
basis() {
    local by
    by=$(kit)
    [ -n "$by" ] && sum_of_sources && echo "$by"
}

# Keeps what was built and proved of this, and says beside it of what, where, and which file it is.
keep() {
    mkdir -p "${kept%/*}" && draw && cp "$built" "$kept.$$" &&
        { echo "$1" && place && sum_of "$kept.$$"; } > "$stamp.$$" &&
        mv -f "$kept.$$" "$kept" && mv -f "$stamp.$$" "$stamp"
}

# A hash of this machine's id and of a number that was drawn for this user here, outside the checkout: a copy of the
# checkout doesn't have it, and copies of a machine may have one id. A machine without an id has one until it stops.
place() {
    local id="" number=""
    { read -r id < /etc/machine-id; } 2> /dev/null
    [ -n "$id" ] || { read -r id < /proc/sys/kernel/random/boot_id; } 2> /dev/null
    { read -r number < "$(drawn)"; } 2> /dev/null
    if [ -n "$id$number" ]; then echo "$id $number" | sha256sum; else echo; fi
}

# Draws the number, if that can be kept and wasn't done.
draw() {
    local file
    file=$(drawn)
    [ -s "$file" ] || (set -C && mkdir -p "${file%/*}" && od -An -N16 -tx8 /dev/urandom > "$file") 2> /dev/null
    true
}

# Where the number stands.
drawn() {
    echo "${XDG_STATE_HOME:-${HOME:-/nonexistent}/.local/state}/cundarrix/place"
}

# Says for --version whether a program is there, and where it was proved.
state() {
    local instead="rt try answers, which proves nothing"
    [ "$root" = "$top" ] || instead="rt try can't answer in its place"
    if find_program; then
        if [ "$proved" = here ]; then
            echo "proved here"
        else
            echo "proved elsewhere, as its stamp says, and not on this machine"
        fi
    elif [ -e "$kept" ]; then
        echo "proved of other sources or by another kit, so it isn't run; $instead"
    else
        echo "none; $instead"
    fi
}
