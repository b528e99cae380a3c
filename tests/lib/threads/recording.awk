# Makes a recording for threads, the same one for the same words:
#   awk -v seed=1 -v conns=2 -v units=3 -v numbers=40 -v window=1024 -v first=00000001 -v end=none -f recording.awk
# The numbers from `first` on are spread over the connections, so that those of one connection ascend. Most belong to SCSI
# Commands. Immediate requests, functions, numbers that came before and numbers far away stand between them. D lines
# that no threads would give are there to be passed over. At the end stands nothing more (none), a numbered Logout of
# the session (session), an immediate one (now), an immediate Logout of each connection by itself (each), or an
# immediate Logout of the last connection by the first (other).
# The line '# N numbers' says that each of the N numbers is delivered, voided or emptied in every schedule.

# The next number of Park and Miller's generator, as one from 0 to n - 1.
function below(n) {
    state = (state * 16807) % 2147483647
    return int(state / 2147483647 * n)
}

function from_hex(digits,    i, n) {
    for (i = 1; i <= length(digits); i++) n = n * 16 + index("0123456789abcdef", tolower(substr(digits, i, 1))) - 1
    return n
}

function hex8(n) {
    n = n % 4294967296
    return sprintf("%04x%04x", int(n / 65536), n % 65536)
}

function any8() {
    return sprintf("%04x%04x", below(65536), below(65536))
}

function sn_of(k) {
    return hex8(start + k - 1)
}

# A header: its first word, LUN, tag, sixth word, number, and the four words from the ninth on.
function header(head, lun, tag, sixth, sn, rest) {
    return head "00000000" lun "00000000" tag sixth sn any8() rest
}

function lun_of(unit) {
    return sprintf("%s%02x0000", below(4) ? "00" : "40", unit)
}

function attr() {
    return substr("81818181818180828283", 1 + 2 * below(10), 2)
}

function command(k, i_bit,    tag) {
    tag = tags + k
    if (i_bit) tag += 4096
    else if (k > 1 && below(30) == 0) tag = tags + 1 + below(k - 1)
    if (!i_bit) unit_of[k] = below(40) ? below(units) : 255
    return header((i_bit ? "41" : "01") attr() "0000", lun_of(i_bit ? below(units) : unit_of[k]), hex8(tag), any8(), sn_of(k), any8() any8() any8() any8())
}

# A function; it refers to the command j.
function management(code, i_bit, k, j) {
    return header((i_bit ? "42" : "02") code "0000", lun_of(unit_of[j] + 0), hex8(tags + 8192 + ++functions), code ~ /[19]$/ ? hex8(tags + j) : "ffffffff", sn_of(k), sn_of(j) "000000000000000000000000")
}

function nop(i_bit, k) {
    return header((i_bit ? "40" : "00") "800000", "00000000", below(8) ? hex8(tags + 12288 + k) : "ffffffff", "ffffffff", sn_of(k), "00000000000000000000000000000000")
}

function logout(i_bit, reason, cid, k) {
    return header((i_bit ? "46" : "06") "8" reason "0000", "00000000", hex8(tags + 16384 + k), sprintf("%04x0000", cid), sn_of(k), "00000000000000000000000000000000")
}

function post(c, digits) {
    line[c, ++count[c]] = digits
}

# The connection of the number k.
function place(k) {
    if (style == 0) return below(conns)
    if (style == 1) {
        if (left-- <= 0) {
            left = below(16)
            at = below(conns)
        }
        return at
    }
    if (style == 2) return conns - 1 - int((k - 1) * conns / numbers)
    return k % conns
}

# What stands after the number k on the connection c.
function sprinkle(c, k,    dice) {
    dice = below(100)
    if (dice < 8) post(c, nop(1, k + 1))
    else if (dice < 18) post(c, management("81", 1, k + 1, 1 + below(k)))
    else if (dice < 21) post(c, management(substr("828485898a", 1 + 2 * below(5), 2), 1, k + 1, 1 + below(k)))
    else if (dice < 25) post(c, command(k, 1))
    else if (dice < 28) post(below(conns), command(1 + below(k), 0))
    else if (dice < 29) post(c, command(k + 1048576, 0))
}

function put(c, digits) {
    if (below(10) == 0) digits = toupper(digits)
    printf "%sC %d %s\n", below(20) ? "" : "> ", cid[c], digits
}

# A line that is passed over.
function put_other(    dice) {
    dice = below(4)
    if (dice == 0) print "# a comment"
    else if (dice == 1) print ""
    else if (dice == 2) printf "D %d 02\n", 1 + below(20)
    else printf "D %d 00\n", 1000000 + below(20)
}

BEGIN {
    state = 1 + (seed * 7919 + 104729) % 2147483646
    for (c = 0; c < 20; c++) below(2)
    split("1 0 65535 7 300 12 4096 255", cid, " ")
    for (c = 0; c < conns; c++) cid[c] = cid[c + 1]
    start = from_hex(first)
    tags = 16777216 * below(200) + 40960
    style = below(4)

    for (k = 1; k <= numbers; k++) {
        c = place(k)
        dice = below(100)
        if (k == numbers && end == "session") post(c, logout(0, 0, 0, k))
        else if (dice < 5) post(c, nop(0, k))
        else if (dice < 6) post(c, header("04800000", "00000000", hex8(tags + k), "ffffffff", sn_of(k), "00000000000000000000000000000000"))
        else if (dice < 8 && k > 1) post(c, management("01", 0, k, 1 + below(k - 1)))
        else post(c, command(k, 0))
        sprinkle(c, k)
    }
    if (end == "now") post(conns - 1, logout(1, 0, 0, numbers))
    if (end == "other") post(0, logout(1, 1, cid[conns - 1], numbers))
    for (c = 0; c < conns; c++) {
        if (end == "each") post(c, logout(1, 1, cid[c], numbers))
        all += count[c]
    }

    if (window >= numbers && end != "now" && end != "other") printf "# %d numbers\n", numbers
    for (c = 0; c < conns; c++) printf "conn %d %s\n", cid[c], any8()
    for (; all > 0; all--) {
        if (below(12) == 0) put_other()
        for (c = below(conns); done[c] == count[c]; c = (c + 1) % conns);
        put(c, line[c, ++done[c]])
    }
    put_other()
}
