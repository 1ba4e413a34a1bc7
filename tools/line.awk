# The words for a line that the import refuses: the line itself, and what is wrong with it.
#
# usage: od -A n -v -t u1 FILE | awk -v number=N -v place=LINE -f tools/line.awk
# Prints one line, or nothing where FILE has no such fault there. Of the text only bytes 32 to 126 are printed as they are. Small awks will do.

BEGIN { size = 0 }

{ for (i = 1; i <= NF; i++) byte[size++] = $i + 0 }

END { if (find() && (words = said()) != "") print "line " place ", " quoted() ": " words }

# ---- the way to the line, its fields, and the hour that is due there

function find(   n) {
    from = 0
    for (n = 1; n < place; n++) from = end_of(from) + 1
    to = end_of(from)
    cut()
    due_day = int((place - 1) / 24)
    due_hour = (place - 1) % 24
    return place > 0 && from < size
}

function end_of(p) {
    while (p < size && byte[p] != 10) p++
    return p
}

function cut(   p) {
    fields = 1
    start[1] = from
    for (p = from; p < to; p++) if (byte[p] == 44) { stop[fields++] = p; start[fields] = p + 1 }
    stop[fields] = to
}

# ---- fields

function is_empty(n) { return start[n] == stop[n] }

function digits(p, end) {
    while (p < end && byte[p] >= 48 && byte[p] <= 57) p++
    return p
}

function is_number(p, end) { return p < end && digits(p, end) == end }

# Past every limit it stops growing.
function number_of(p, end,   n) {
    for (n = 0; p < end; p++) n = n > 10000000 ? n : 10 * n + byte[p] - 48
    return n
}

function letter() { return stop[3] == start[3] + 1 ? byte[start[3]] : 0 }

# In hundredths: the field is digits, and behind a point one or two more.
function hundredths(   point) {
    point = digits(start[4], stop[4])
    return 100 * number_of(start[4], point) + number_of(point + 1, stop[4]) * (stop[4] - point == 2 ? 10 : 1)
}

# ---- what is wrong

function said(   wrong) {
    if (number == 20) return over()
    if (number != 19) return ""
    if ((wrong = malformed()) != "") return wrong
    if (!in_turn()) return "it is not of day " due_day ", hour " due_hour ", which is due"
    if (to + 1 < size || due_hour == 23) return ""
    return "it is the last line, and day " due_day " lacks hour" (due_hour == 22 ? " 23" : "s " (due_hour + 1) " to 23")
}

function in_turn() { return number_of(start[1], stop[1]) == due_day && number_of(start[2], stop[2]) == due_hour }

function malformed() {
    if (to == size) return "no LF ends it"
    if (from == to) return "it is empty"
    if (byte[to - 1] == 13) return "it ends with CR LF, and must end with LF alone"
    if (fields != 5) return "it has " (fields - 1) (fields == 2 ? " comma" : " commas") ", and must have 4"
    if (!is_number(start[1], stop[1])) return no_digits("day", 1)
    if (!is_number(start[2], stop[2])) return no_digits("hour", 2)
    if (letter() == 82) return readings()
    if (letter() != 77 && letter() != 83) return "its letter is none of R, M, S"
    return is_empty(4) && is_empty(5) ? "" : "an hour with M or S has neither a concentration nor a flow"
}

function no_digits(name, n) { return "its " name (is_empty(n) ? " is empty" : " is not digits alone") }

function readings(   point) {
    if (is_empty(4)) return no_digits("concentration", 4)
    point = digits(start[4], stop[4])
    if (point == start[4] || !decimals(point, stop[4])) return "its concentration is neither digits nor digits with a point between them"
    if (stop[4] - point > 3) return "its concentration has " (stop[4] - point - 1) " decimals, and may have at most 2"
    return is_number(start[5], stop[5]) ? "" : no_digits("flow", 5)
}

function decimals(point, end) { return point == end || (byte[point] == 46 && is_number(point + 1, end)) }

function over() {
    if (malformed() != "") return ""
    if (letter() == 82 && hundredths() > 1000000) return "its concentration is over 10,000 mg/m3"
    if (letter() == 82 && number_of(start[5], stop[5]) > 5000000) return "its flow is over 5,000,000 m3/h"
    return due_day > 91 ? "day " due_day " is past day 91, the last that a text may have" : ""
}

# ---- the line, cut where it is long; a byte that is not printed, and the backslash, by its number

function quoted(   p, text) {
    for (p = from; p < to && p < from + 60; p++) text = text sprintf(byte[p] > 31 && byte[p] < 127 && byte[p] != 92 ? "%c" : "\\x%02x", byte[p])
    return "'" text "'" (p < to ? " and " (to - p) " bytes more" : "")
}
