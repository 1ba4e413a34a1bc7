# The words for a filing that is wrong or refused: whose row it is and which number, what is filed and what is right; or a line, and what is wrong with it.
#
# usage: { od -A n -v -t u1 FILED && echo stated && account <FILE; } | awk -v answer='wrong ROW FIELD' -f tools/filed.awk
#        answer='refused 19 LINE', likewise with 20, and 'refused 22 0'; for 19 and 20 nothing has to stand behind "stated"
# Prints one line, or nothing where the filing has no such fault there. Numbers stay texts, since awk's own lose digits. Of the filing only bytes 32 to 126 are
# printed as they are. Small awks will do.

BEGIN {
    size = due = 0
    split("sulphur dioxide,nitrogen oxides,dust,chemical oxygen demand,ammonia nitrogen", pollutant_of, ",")
    split("automatic,manual,mass balance,coefficient", method_of, ",")
    split(answer, part, " ")
}

behind { stated[due++] = $0 }
/^stated/ { behind = 1 }
!behind { for (i = 1; i <= NF; i++) byte[size++] = $i + 0 }

END { find_lines(); if ((words = said()) != "") print words }

function said() {
    if (part[1] == "wrong") return wrong(part[2] + 0, part[3] + 0)
    if (part[2] == 22) return counts()
    place = part[3] + 0
    if (part[2] == 19 && place == lines + 1 && !total_at) return "line " place " is not there: the filing ends, and the line 'total' is due"
    if (place < 1 || place > lines) return ""
    return named(part[2] == 19 ? misplaced() : part[2] == 20 ? over() : "")
}

# ---- lines, from 1, and their numbers

# The first line that has the form of the totals is the last that a filing may have.
function find_lines(   p) {
    lines = total_at = 0
    for (p = 0; p < size; p = to[lines] + 1) {
        from[++lines] = p
        to[lines] = end_of(p)
        if (!total_at && is_total(lines)) total_at = lines
    }
}

function end_of(p) {
    while (p < size && byte[p] != 10) p++
    return p
}

# The line without leading zeros, with ? for a byte that is not printed.
function text_of(n,   p, text) {
    for (p = from[n]; p < to[n]; p++) if (!is_leading_zero(n, p)) text = text (is_printed(p) ? sprintf("%c", byte[p]) : "?")
    return text
}

function is_printed(p) { return byte[p] > 31 && byte[p] < 127 }

function is_leading_zero(n, p) {
    if (p == from[n] || byte[p - 1] == 32) leading = 1
    if (byte[p] != 48) leading = 0
    return leading && p + 1 < to[n] && byte[p + 1] >= 48 && byte[p + 1] <= 57
}

# Cuts the line at each single blank, and says how many parts it has.
function cut(n) { return split(text_of(n), cell, "[ ]") }

function all_numbers(first, last,   i) {
    for (i = first; i <= last; i++) if (cell[i] !~ /^[0-9]+$/) return 0
    return 1
}

function is_total(n) { return cut(n) == 6 && cell[1] == "total" && all_numbers(2, 6) && to[n] < size }

# How many numbers a row has, 0 where the line is none.
function row_of(n,   k) {
    k = cut(n)
    return k <= 7 && all_numbers(1, k) && to[n] < size ? k : 0
}

# ---- a number that is wrong

function wrong(row, field,   right, filed, k, name) {
    k = split(stated[row], right, " ")
    if (k < 6 || row >= lines) return ""
    cut(row + 1)
    name = right[1] == "total" ? total_name(field + 1) : row_name(right, field + 1)
    if (right[1] == "total") field++
    filed = cell[field + 1]
    if (filed == "" || filed "" == right[field + 1] "") return ""
    return "line " (row + 1) ", " name ": " meant(filed, right[1], field) " is filed, and " meant(right[field + 1], right[1], field) " is right"
}

function total_name(n) { return "the total of " pollutant(n) ", in grams" }
function pollutant(n) { return "pollutant " n " (" pollutant_of[n] ")" }

function row_name(right, n,   water, slot) {
    water = right[2] > 3
    slot = water ? "day" : "hour"
    split((water ? "outfall" : "stack") ",pollutant,method,grams,running " slot "s,missing " slot "s,first missing " slot " plus 1", name_of, ",")
    return (water ? "outfall " : "stack ") right[1] ", " pollutant(right[2]) ", " name_of[n]
}

# A number with what it stands for, where it is a code.
function meant(number, first, field) {
    if (first == "total" || length(number) > 1) return number
    if (field == 1 && number in pollutant_of) return number " (" pollutant_of[number] ")"
    if (field == 2 && number in method_of) return number " (" method_of[number] ")"
    return number
}

# ---- a filing that is refused

function counts(   n, rows, numbers) {
    if (!total_at || !due) return ""
    for (n = 1; n < total_at; n++) { rows++; numbers += row_of(n) }
    return many(rows, "row") " with " many(numbers, "number") " in all; the record file has " many(due - 1, "line") ", and so " 7 * (due - 1) " are due"
}

function many(n, word) { return n + 0 " " word (n == 1 ? "" : "s") }

function named(words) { return words == "" ? "" : "line " place ", " quoted() ": " words }

function misplaced(   k, words) {
    if (total_at && place > total_at) return "it stands behind the line 'total', which has to be the last"
    if ((words = malformed()) != "") return words
    k = row_of(place)
    return k > 0 && k < 7 && place + 1 != total_at ? "it has " many(k, "number") ", and a row has 7" : ""
}

function malformed(   k, text, first) {
    if (to[place] == size) return "no LF ends it"
    if (from[place] == to[place]) return "it is empty"
    if (byte[to[place] - 1] == 13) return "it ends with CR LF, and must end with LF alone"
    text = text_of(place)
    if (text ~ /^ / || text ~ / $/ || text ~ /  /) return "it has a blank too many: there is one between two numbers, and no other"
    k = cut(place)
    first = cell[1] == "total" ? 2 : 1
    if (!all_numbers(first, k)) return "its number " bad(first, k) " is not digits alone"
    if (first == 2) return k == 6 ? "" : "it has " many(k - 1, "total") ", and must have 5"
    return k > 7 ? "it has " k " numbers, and a row has 7" : ""
}

function bad(first, last,   i) {
    for (i = first; i < last && cell[i] ~ /^[0-9]+$/; i++) continue
    return i - first + 1
}

function over(   k, i, first) {
    if (malformed() != "") return ""
    k = cut(place)
    first = cell[1] == "total" ? 2 : 1
    for (i = first; i < k && fits(cell[i]); i++) continue
    return fits(cell[i]) ? "" : "its number " (i - first + 1) " is over 18,446,744,073,709,551,615"
}

# At most 2^64 - 1, by its digits, of which leading zeros are gone.
function fits(number) { return length(number) < 20 || length(number) == 20 && number "" <= "18446744073709551615" }

# ---- the line, cut where it is long; a byte that is not printed, and the backslash, by its number

function quoted(   p, text) {
    for (p = from[place]; p < to[place] && p < from[place] + 60; p++) text = text sprintf(is_printed(p) && byte[p] != 92 ? "%c" : "\\x%02x", byte[p])
    return "'" text "'" (p < to[place] ? " and " (to[place] - p) " bytes more" : "")
}
