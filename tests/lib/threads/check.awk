# What is wrong with the report of a recording that was replayed with threads, where it can be said of every schedule:
#   awk -v first=00000001 -f check.awk recording report
# It prints nothing, or the first thing of each kind that is wrong, in one line.
#
# - The arrivals of each connection are those of the recording, in order, and no completion is the recording's.
# - Numbers are delivered one after the other from `first` on; those that were voided or emptied before are left out.
#   Each has one of these fates, and so many numbers have one as the recording says in '# N numbers'.
# - What a unit is asked to do by `enable`, it answers in this order, once, with the status 00. At the end no command is
#   live; so what wasn't answered was taken out.

function wrong(kind, text) {
    if (kind in known) return
    known[kind] = 1
    printf "%s%s", separator, text
    separator = "; "
}

function from_hex(digits,    i, n) {
    for (i = 1; i <= length(digits); i++) n = n * 16 + index("0123456789abcdef", tolower(substr(digits, i, 1))) - 1
    return n
}

function hex8(n) {
    return sprintf("%04x%04x", int(n / 65536), n % 65536)
}

function give_fate(sn) {
    if (sn in has_fate) wrong("fates", sn " has two fates")
    has_fate[sn] = 1
    fates++
}

function arrive(arrival,    cid) {
    split(arrival, part, " ")
    cid = part[2]
    if (++come[cid] > sent[cid] || arrival != arrivals[cid, come[cid]]) wrong("arrivals", "another arrival on connection " cid)
}

function deliver(sn,    steps) {
    while (hex8(next_sn) in is_gone) next_sn = (next_sn + 1) % 4294967296
    if (sn != hex8(next_sn)) wrong("order", sn " is delivered in place of " hex8(next_sn))
    next_sn = (next_sn + 1) % 4294967296
}

function enable(ticket,    unit) {
    if (ticket in is_enabled) wrong("enabled twice", "ticket " ticket " is enabled twice")
    is_enabled[ticket] = 1
    unit = unit_of[ticket]
    job[unit, ++jobs[unit]] = ticket
}

function complete(ticket, status,    unit) {
    if (!(ticket in is_enabled)) {
        wrong("not enabled", "ticket " ticket " is completed and wasn't enabled")
        return
    }
    if (status != "00") wrong("status", "ticket " ticket " is completed with status " status)
    if (ticket in is_complete) {
        wrong("completed twice", "ticket " ticket " is completed twice")
        return
    }
    is_complete[ticket] = 1
    unit = unit_of[ticket]
    if (ticket != job[unit, ++answers[unit]]) wrong("turns", "unit " unit " answers ticket " ticket " out of its turn")
}

function leave(ticket) {
    has_left[ticket] = 1
    if (event == "C") is_taken[ticket] = 1
    else if (event != ticket) wrong("leaves", "ticket " ticket " leaves with another one")
}

BEGIN { next_sn = from_hex(first) }

# The recording.
FNR == NR && /^# [0-9]+ numbers$/ { numbers = $2 }
FNR == NR && /^(> )?C / {
    sub(/^> /, "")
    split($0, part, " ")
    arrivals[part[2], ++sent[part[2]]] = "C " part[2] " " tolower(part[3])
}
FNR == NR { next }

# The report.
$1 == ">" && $2 == "C" {
    event = "C"
    arrive(substr($0, 3))
    next
}
$1 == ">" && $2 == "D" {
    event = $3
    complete($3, $4)
    next
}
$1 == "deliver" {
    deliver($3)
    give_fate($3)
    next
}
$1 == "void" || $1 == "empty" {
    is_gone[$2] = 1
    give_fate($2)
    next
}
$1 == "enter" {
    unit_of[$2] = $3
    next
}
$1 == "enable" { enable($2) }
$1 == "leave" { leave($2) }

END {
    for (cid in sent) if (come[cid] < sent[cid]) wrong("missing", "an arrival of connection " cid " is missing")
    if (numbers != "" && fates + 0 != numbers) wrong("turns of numbers", fates + 0 " of " numbers " numbers have a fate")
    for (ticket in unit_of) if (!(ticket in has_left)) wrong("live", "ticket " ticket " is live at the end")
    for (ticket in is_enabled) if (!(ticket in is_complete) && !(ticket in is_taken)) wrong("not completed", "ticket " ticket " is enabled and never completed")
}
