# The words for the place of a refusal: which record and which field it is, of which stack or outfall and pollutant, and what is wrong with it.
#
# usage: od -A n -v -t u1 FILE | awk -v number=N -v place=OFFSET -f tools/words.awk
# Prints one line, or nothing where FILE has no such fault at that place. Small awks will do: there is no power, and no large number in int() or %d.

BEGIN {
    size = 0
    split("12 203 12 12 14 2 - - 6 12 12 12", length_of)
    delete length_of[7]; delete length_of[8] # there are no such kinds
    split("head,day record,enforcement survey,plant survey,fuel batch,end record,,,head,day record,enforcement survey,plant survey", name_of, ",")
    split("sulphur dioxide,nitrogen oxides,dust,chemical oxygen demand,ammonia nitrogen", pollutant_of, ",")
}

{ for (i = 1; i <= NF; i++) byte[size++] = $i + 0 }

END { if (find() && (words = said()) != "") print words }

# ---- the way to the place

function u16(p) { return byte[p] + 256 * byte[p + 1] }
function u32(p) { return u16(p) + 65536 * u16(p + 2) }
function u64(p) { return u32(p) + 4294967296 * u32(p + 4) }
function bit(p, n) { return int(scaled(byte[p + int(n / 8)], -(n % 8))) % 2 }

# n x 2^power
function scaled(n, power) {
    for (; power > 0; power--) n *= 2
    for (; power < 0; power++) n /= 2
    return n
}

# Goes from record to record up to the one that has the place: all before it are sound, or the file is not the one that was accounted.
function find() {
    head = -1
    for (at = 0; at < place; at += 2 + length_of[kind]) {
        kind = u16(at + 2)
        if (!whole()) return 0
        if (place < at + 2 + length_of[kind]) return of_field()
        pass()
    }
    kind = u16(at + 2)
    return !of_field() && (number < 8 || number == 18)
}

function of_field() { return number == 4 || (number >= 14 && number <= 17) }
function is_head() { return kind == 1 || kind == 9 }
function is_survey() { return kind == 3 || kind == 4 || kind == 11 || kind == 12 }
function of_water(p) { return u16(p + 2) > 8 }
function whole() { return kind in length_of && u16(at) == length_of[kind] && at + 2 + length_of[kind] <= size }

function pass() {
    before = record()
    if (is_head()) { head = at; open = 1; fuel = batches = running = missing = surveys = 0 }
    if (kind == 5) { fuel += u64(at + 4); batches++ }
    if (kind == 6) open = 0
    if (kind == 10) count_day(byte[at + 5])
    if (is_survey()) surveys++
}

function count_day(state) {
    if (state > 0) running++
    if (state == 1 && missing++ == 0) first = byte[at + 4]
}

# ---- which record

function line(p) { return (of_water(p) ? "outfall " : "stack ") u16(p + 4) pollutant(byte[p + 6], of_water(p)) }
function pollutant(n, water) { return (n in pollutant_of) && (n > 3) == water ? ", pollutant " n " (" pollutant_of[n] ")" : "" }
function days() { return byte[head + (of_water(head) ? 7 : 13)] }
function key(p) { return 256 * u16(p + 4) + byte[p + 6] }

# A record that is cut short may lack what it is named by.
function record() {
    if ((kind == 2 || kind == 10) && at + 5 <= size) return "day record of day " byte[at + 4]
    if (is_survey() && at + 6 <= size) return name_of[kind] when(u16(at + 4))
    return name_of[kind] (kind == 5 ? " number " (batches + 1) : "")
}

function when(n) { return of_water(at) ? " on day " n : " at hour " n " of the period (day " int(n / 24) ", hour " n % 24 ")" }

function whose() {
    if (is_head() && at + 7 <= size) return line(at)
    return open ? line(head) : "outside any line"
}

function after() { return head < 0 ? ", at the file's start" : ", after the " before (open ? "" : " of " line(head)) }

# ---- what is wrong

function said(   wrong) {
    if (number == 1) return no_record()
    if (number == 2) return out_of_place()
    if (place == at) return whole() && open && at_fault() ? whose() ", " record() ending() : ""
    wrong = field(place - at)
    return wrong == "" ? "" : whose() ", " record() ": " wrong
}

function no_record(   left) {
    left = size - at
    if (left < 1 || whole()) return ""
    if (left < 4) return whose() after() ": no more than " left (left == 1 ? " byte is" : " bytes are") " left there, and a record has at least 4"
    if (!(kind in length_of)) return whose() after() ": its kind would be " kind ", and must be 1 to 6 or 9 to 12"
    if (u16(at) != length_of[kind]) return whose() ", " record() ": its length is " u16(at) ", and must be " length_of[kind] ", as its kind is " kind
    return whose() ", " record() ": the file has only " left " of its " (2 + length_of[kind]) " bytes"
}

function out_of_place() {
    if (at == size && open) return line(head) ", the file's end" after()
    return whole() ? whose() ", " record() after() why() : ""
}

function why() {
    if (open && !is_head() && kind != 6 && of_water(at) != of_water(head)) return ": only a line of " (kind > 8 ? "an outfall" : "a stack") " has kind " kind
    if (!open && is_head() && head >= 0 && key(at) <= key(head)) return ": lines rise by number, stacks and outfalls together, then pollutant" unnamed()
    return ""
}

# A pollutant that is not of the head's world does not stand in the line's name.
function unnamed() { return pollutant(byte[at + 6], of_water(at)) == "" ? ", which is " byte[at + 6] " here" : "" }

function at_fault() {
    if (number == 5) return is_survey()
    if (number == 18) return kind == 6 && of_water(head) && missing && !surveys
    return kind == 6 && !of_water(head)
}

function ending() {
    if (number == 7) return ": furnace " byte[head + 8] ", coal " byte[head + 9] ", " u16(head + 10) " MW, volatile mark " byte[head + 12]
    return number == 18 ? ": running days " running ", missing days " missing ", the first of them day " first ", and no survey" : ""
}

function field(o) {
    if (number == 14 && kind == 1) return head_field(o)
    if (number == 14 && kind == 9) return outfall_field(o)
    if (number == 15 && kind == 2) return mask(o)
    if (number == 15 && kind == 10 && o == 5) return range("its state", byte[place], 0, 2, " (0 stopped, 1 missing, 2 measured)")
    if (number == 16 && kind == 5) return fuel_field(o)
    if (number == 17 && is_survey() && o == 4) return range(kind > 8 ? "its day" : "its hour", u16(place), 0, period() - 1, ", as the head's days are " days())
    if (number == 4 && kind == 2) return hour_reading(o - 13)
    if (number == 4 && kind == 10 && (o == 6 || o == 10)) return judged("the day", byte[at + 5] == 2, byte[at + 5], o == 10)
    if (number == 4 && is_survey() && (o == 6 || o == 10)) return reading(o == 10)
    return ""
}

function period() { return of_water(head) ? days() : 24 * days() }

function range(name, value, least, most, reason) {
    if (value >= least && value <= most) return ""
    return name " is " value ", and must be " least (most == least ? "" : (most == least + 1 ? " or " : " to ") most) reason
}

function head_field(o) {
    if (o == 6) return range("pollutant", byte[place], 1, 3, " under a stack's head")
    if (o == 7) return range("automatic required", byte[place], 0, 1)
    if (o == 8) return range("furnace", byte[place], 1, 4)
    if (o == 9) return range("coal", byte[place], 1, 7)
    if (o == 10) return range("MW", u16(place), 9, 65535)
    if (o == 12) return range("volatile mark", byte[place], 1, 4)
    return o == 13 ? range("number of days", byte[place], 1, 92) : ""
}

function outfall_field(o) {
    if (o == 6) return range("pollutant", byte[place], 4, 5, " under an outfall's head")
    return o == 7 ? range("number of days", byte[place], 1, 92) : ""
}

# The bits of a mask from one on up to another; with a run mask given, those that it has not.
function bits(from, to, run,   n, list) {
    for (n = from; n < to; n++) if (bit(place, n) && !(run && bit(run, n))) list = list " " n
    return list
}

function mask(o,   name, list) {
    if (o != 5 && o != 9) return ""
    name = o == 5 ? "run mask" : "measured mask"
    if ((list = bits(24, 32)) != "") return "the " name " has bits past hour 23:" list
    if (o == 9 && (list = bits(0, 24, at + 5)) != "") return "the measured mask has hours that the run mask has not:" list
    return ""
}

function fuel_field(o) {
    if (o == 4) return kilograms(u64(place))
    if (o == 12) return range("sulphur, in 0.01 %,", u16(place), 0, 2000)
    return o == 14 ? range("ash, in 0.01 %,", u16(place), 0, 10000) : ""
}

function kilograms(kg) {
    if (kg == 0) return "kg is 0, and must be at least 1"
    if (fuel + kg <= 10000000000) return ""
    return "kg is " count(kg) ", which takes the line's fuel over 10,000,000,000 kg; before it there are " count(fuel) " kg"
}

# Past 2^53 awk no longer counts by one.
function count(n) { return n < 9007199254740992 ? sprintf("%.0f", n) : "9,007,199,254,740,992 or more" }

function hour_reading(o,   hour) {
    hour = int(o / 8)
    return o < 0 || o % 4 ? "" : judged("hour " hour, bit(at + 9, hour), bit(at + 5, hour), o % 8 == 4)
}

# A reading of an hour or of a day.
function judged(name, measured, runs, is_flow,   what) {
    if (measured) return (what = reading(is_flow)) == "" ? "" : name " is measured, and its " what
    if (u32(place) == 0) return ""
    return name " is not measured but " (runs ? "missing" : "stopped") ", and its " quantity(is_flow) " has bytes other than zero"
}

function quantity(is_flow) { return is_flow ? "flow" : "concentration" }
function unit_of(is_flow) { return is_flow ? (of_water(at) ? " m3 per day" : " m3/h") : (of_water(at) ? " mg/L" : " mg/m3") }

# A measured reading that is not allowed, by its exact value.
function reading(is_flow,   name, exponent, rest, value, unit) {
    name = quantity(is_flow) " is "
    exponent = byte[place + 3] % 128 * 2 + bit(place, 23)
    rest = u16(place) + byte[place + 2] % 128 * 65536
    if (exponent == 255) return name (rest ? "not a number" : "infinite")
    value = exponent ? scaled(8388608 + rest, exponent - 150) : scaled(rest, -149)
    unit = unit_of(is_flow)
    if (byte[place + 3] > 127 && value) return name "negative: " sprintf("%.9g", -value) unit
    if (is_flow ? value < 5000000.5 : value * 100 < 1000000.5) return ""
    return name sprintf("%.9g", value) unit ", and must be at most " (is_flow ? "5,000,000" : "10,000.00") " after rounding"
}
