# shellcheck shell=bash
# The lock: one build at a time, since a build takes all processors and writes one log.
#
# `held` has the number of the open lock file, or `held_folder` the folder that is the lock. `not_writable` is the line
# that a repository gets which can't be written to.

# Takes the lock, and waits for it. It is let go of when this script ends, however it ends, and rt with it.
lock() {
    local file=$top/out/build.lock
    if ! command -v flock > /dev/null; then
        lock_by_folder "$file.held"
        return
    fi
    { exec {held}> "$file"; } 2> /dev/null || fail "$not_built" "$not_writable"
    flock -n "$held" && return
    tell "another build is going on; waiting for its end"
    flock "$held"
}

# Lets go of the lock.
unlock() {
    [ -z "${held-}" ] || exec {held}>&-
    [ -z "${held_folder-}" ] || rm -rf "$held_folder"
    held='' held_folder=''
}

# Without flock, a folder is the lock. It has the number of the process that made it.
lock_by_folder() {
    local told=no
    until mkdir "$1" 2> /dev/null; do
        [ -d "$1" ] || fail "$not_built" "$not_writable"
        [ "$told" = yes ] || tell "another build is going on; waiting for its end"
        told=yes
        remove_stale "$1" || sleep 0.2
    done
    echo "$$" > "$1/pid"
    held_folder=$1
    trap unlock EXIT
}

# Removes a lock whose process is gone. It is moved first, so that of two that wait one alone removes it, and put back
# if it is another lock by then.
remove_stale() {
    local pid aside=$1.$$
    pid=$(cat "$1/pid" 2> /dev/null)
    if [ -n "$pid" ]; then
        kill -0 "$pid" 2> /dev/null || [ -d "/proc/$pid" ] && return 1
    else
        [ -n "$(find "$1" -maxdepth 0 -mmin +1 2> /dev/null)" ] || return 1
    fi
    mv -T "$1" "$aside" 2> /dev/null || return 1
    if [ "$(cat "$aside/pid" 2> /dev/null)" != "$pid" ]; then
        mv -T "$aside" "$1"
        return 1
    fi
    rm -rf "$aside"
}
