#!/bin/sh
# Tries the launcher: says for each case what it gave and whether that is as expected, and ends with 1 where one is not.
#
# usage: tools/try_launcher.sh [SHELL]     SHELL (dash, bash, ..) runs the launcher; without it the launcher's own first line decides
set -u
cd "$(dirname -- "$0")/.." || exit 2
home=$(pwd -P)
launcher=$home/doarpezwim
shell=''
[ $# -eq 0 ] || shell=$(command -v -- "$1") || { echo "there is no shell '$1'" >&2 && exit 2; }
room=$(mktemp -d) || exit 2
trap 'rm -rf "$room"' EXIT
trap 'exit 2' HUP INT TERM
cases=0 wrong=0

run() { ${shell:+"$shell"} "$@"; }
launch() { run "$launcher" "$@"; }
skip() { echo "skipped  $1: $2"; }

# The first line of a file and how many come after it.
gist() { # FILE
    more=$(($(wc -l <"$1") - 1))
    if [ "$more" -lt 0 ]; then echo nothing; else echo "'$(head -n 1 "$1" | cut -c 1-100)'$([ "$more" -eq 0 ] || echo " and $more more")"; fi
}

# The case ends with STATUS, prints what the file OUT has, and says WORDS on standard error (nothing where there are no WORDS).
expect() { # CASE STATUS OUT WORDS COMMAND...
    name=$1 status=$2 out=$3 words=$4 fault=''
    shift 4
    "$@" >"$room/out" 2>"$room/all"
    got=$?
    # on a busy machine any check may take so long that the launcher speaks of it
    if [ "$words" = proving ]; then cp "$room/all" "$room/err"; else grep -v ' proving and building ' "$room/all" >"$room/err"; fi
    [ "$got" -eq "$status" ] || fault="$fault; status $status is expected"
    cmp -s "$room/out" "$out" || fault="$fault; $(gist "$out") is expected to be printed"
    if [ -z "$words" ]; then [ ! -s "$room/err" ]; else grep -qF -- "$words" "$room/err"; fi || fault="$fault; '${words:-nothing}' is expected to be said"
    cases=$((cases + 1))
    [ -z "$fault" ] || wrong=$((wrong + 1))
    echo "$([ -z "$fault" ] && echo 'ok      ' || echo 'WRONG   ') $name: status $got, printed $(gist "$room/out"), said $(gist "$room/err")$fault"
}
refused() { printf 'refused %s %s\n' "$2" "$3" >"$room/refused" && expect "$1" 1 "$room/refused" "$4" launch account "$5"; } # CASE N PLACE WORDS FILE
# A field at fault, OFFSET's bytes in BASE made BYTES (octal, \0ooo): by its name, as standard input, and through a pipe.
field() { # CASE BASE OFFSET BYTES N PLACE WORDS
    change "$2" "$3" "$4" >"$room/changed"
    refused "$1" "$5" "$6" "$7" "$room/changed"
    expect "$1, by -" 1 "$room/refused" "$7" launch account - <"$room/changed"
    expect "$1, through a pipe" 1 "$room/refused" "$7" in_two "$room/changed" launch account
}
# A text that is refused: nothing is printed, and the first line that is said, which stands in for it here, is the program's own.
not_taken() { # CASE N LINE WORDS FILE
    printf 'refused %s %s\n' "$2" "$3" >"$room/refused" && expect "$1" 1 "$room/refused" "$4" said_first launch import "$5"
}
# A line at fault, LINE of the sample made TEXT (with \0ooo for a byte): by its name, as standard input, and through a pipe.
line() { # CASE LINE TEXT N WORDS
    with_line "$2" "$3" >"$room/changed"
    not_taken "$1" "$4" "$2" "$5" "$room/changed"
    expect "$1, by -" 1 /dev/null "$5" launch import - <"$room/changed"
    expect "$1, through a pipe" 1 /dev/null "$5" in_two "$room/changed" launch import
}
# What is said of a filing: ANSWER is printed, and WORDS are said; nothing is said of one that agrees.
says() { # CASE ANSWER WORDS FILE FILED
    status=1 && [ "$2" != yes ] || status=0
    echo "$2" >"$room/answer" && expect "$1" $status "$room/answer" "$3" launch check "$4" "$5"
}
# A filing at fault, LINE of the quarter's own made TEXT (with \0ooo for a byte, and \n for an end): by its name, as standard input, and through a pipe.
filing() { # CASE LINE TEXT ANSWER WORDS
    { head -n $(($2 - 1)) "$rows" && printf '%b\n' "$3" && tail -n +$(($2 + 1)) "$rows"; } >"$room/changed"
    says "$1" "$4" "$5" "$quarter" "$room/changed"
    expect "$1, by -" 1 "$room/answer" "$5" launch check "$quarter" - <"$room/changed"
    expect "$1, through a pipe" 1 "$room/answer" "$5" in_two "$room/changed" launch check "$quarter" -
}
no_answer() { name=$1 words=$2 && shift 2 && expect "$name" 2 /dev/null "$words" "$@"; } # CASE WORDS COMMAND...

# ways to run a command
in_pieces() { { head -c 100 && sleep 1 && cat; } <samples/quarter.rec | "$@"; }
in_two() { file=$1 && shift && { head -c 9 && cat; } <"$file" | "$@"; }
endless() { yes | "$@"; }
by_fifo() { mkfifo "$room/fifo" && { cat "$room/coal" >"$room/fifo" & } && "$@" "$room/fifo"; }
by_two_fifos() { # FILE FILED COMMAND...
    rm -f "$room/first" "$room/second" && mkfifo "$room/first" "$room/second" && { cat "$1" >"$room/first" & } && { cat "$2" >"$room/second" & }
    shift 2 && "$@" "$room/first" "$room/second"
}
said_first() { "$@" 2>"$room/said"; got=$? && grep -v ' proving and building ' "$room/said" | head -n 1 && cat "$room/said" >&2 && return $got; }
from() { (cd "$1" && shift && "$@"); }
to_full_disk() { "$@" >/dev/full; }
no_stdin() { "$@" <&-; }
no_stdout() { "$@" >&-; }
no_stderr() { "$@" 2>&-; }
no_rt() { (PATH=$room/tools "$@"); }
other_kit() { (PATH=$room/kit:$PATH "$@"); }
broken() { (PATH=$room/$1:$PATH && shift && "$@"); }
temporary() { (export TMPDIR="$1" && shift && "$@"); }
# Says what stays behind in the folder for temporary files.
left_behind() { mkdir -p "$room/tmp" && temporary "$room/tmp" "$@"; got=$? && ls -A "$room/tmp" >&2 && return $got; }
killed() { # SIGNAL COMMAND...: the launcher, while it waits for more of its input
    signal=$1 && shift
    mkfifo "$room/more" && { ${shell:+"$shell"} "$launcher" "$@" <"$room/more" & } && exec 7>"$room/more"
    head -c 9 "$example" >&7 && sleep 3 && kill -s "$signal" $! && wait $! 2>/dev/null
    got=$?
    exec 7>&- && rm -f "$room/more"
    return $got
}
with_variables() { (export LD_BIND_NOW=1 LD_WARN=1 LD_LIBRARY_PATH="$room/none" && "$@"); }
reader_gone() { { "$@"; echo $? >"$room/status"; } | true; return "$(cat "$room/status")"; }
four_at_once() {
    for i in 1 2 3 4; do ("$@" >"$room/out.$i" || echo failed >>"$room/out.$i") & done
    wait
    cat "$room"/out.[1-4]
}
at_terminal() { # COMMAND [FILE]
    export launcher room shell command="$1" file="${2-}"
    # shellcheck disable=SC2016
    printf '\004' |
        SHELL=/bin/sh script -qec '${shell:+"$shell"} "$launcher" "$command" ${file:+- "$file"} >"$room/tty.out" 2>"$room/tty.err"' /dev/null >/dev/null
    got=$?
    cat "$room/tty.out" && cat "$room/tty.err" >&2
    return $got
}
to_terminal() {
    export launcher room shell text
    # shellcheck disable=SC2016
    SHELL=/bin/sh script -qec '${shell:+"$shell"} "$launcher" import "$text" 2>"$room/tty.err"' /dev/null </dev/null
    got=$?
    cat "$room/tty.err" >&2
    return $got
}
# A head, what the command prints, and an end.
as_file() { bytes samples/imported.rec 14 0 && "$@" && printf '%b' "$end"; }

# ---- files
bytes() { head -c "$2" "$1" | tail -c +$(($3 + 1)); } # FILE TO FROM: its bytes from FROM up to TO
zeros() { head -c "$1" /dev/zero; }
# BASE with BYTES at OFFSET
change() { bytes "$1" "$2" 0 && printf '%b' "$3" && tail -c +$(($2 + $(printf '%b' "$3" | wc -c) + 1)) "$1"; } # BASE OFFSET BYTES
before_end() { bytes "$example" 219 0 && printf '%b' "$1" && bytes "$example" 223 219; } # BYTES: the example with these records
example=$home/samples/example.rec stated=$home/samples/example.out
printf 'total 0 0 0 0 0\n' >"$room/zero.out" && printf 'refused 14 9\n' >"$room/coal.out"
usage_text=$room/usage.out && launch help >"$usage_text"
: >"$room/empty" && cp "$example" "$room/a name.rec" && cp "$example" "$room/-name.rec" && mkdir "$room/folder"
ln -s "$launcher" "$room/a link" && ln -s "a link" "$room/link"
{ cat crates/account/stdin && printf x; } >"$room/65537"
head -c 100 "$example" >"$room/cut" && head -c 219 "$example" >"$room/open"
LC_ALL=C sed "s/\$/$(printf '\r')/" samples/quarter.rec >"$room/crlf"
quarter=$home/samples/quarter.rec one="stack 1, pollutant 2 (nitrogen oxides)" seven="stack 7, pollutant 1 (sulphur dioxide), day record of day"
day="$one, day record of day 0" batch="$one, fuel batch number" survey="$one, enforcement survey at hour" plant="$one, plant survey at hour"
not_found="the field of a head at byte 9 (the first byte is 0)"
pair='\000\000\0240\0101\000\044\0164\0111' # 20 mg/m3 and 1,000,000 m3/h
before_end "\014\000\003\000\027\000$pair" >"$room/stopped"
before_end "\014\000\003\000\000\000$pair\014\000\004\000\001\000$pair" >"$room/surveys"
# 9,999,999,999 kg and 1 kg
before_end '\016\000\005\000\0377\0343\013\0124\002\000\000\000\000\000\000\000\016\000\005\000\001\000\000\000\000\000\000\000\000\000\000\000' >"$room/fuel"
change "$example" 9 '\011' >"$room/coal" && change "$example" 18 '\001' >"$room/turn" && cat "$example" "$example" >"$room/twice"
before_end '\014\000\007\000' >"$room/kind" && change "$example" 14 '\0315' >"$room/length" && { cat "$example" && echo; } >"$room/feed"
{ bytes "$example" 23 0 && zeros 196 && bytes "$example" 223 219; } >"$room/dark"
{ bytes "$room/dark" 8 0 && printf '\004' && bytes "$room/dark" 219 9 && printf '\016\0\005\0\001' && zeros 11; } >"$room/boiler"
bytes "$room/dark" 223 219 >>"$room/boiler"
# outfall 3, three days: measured, missing, stopped; an enforcement survey on day 1 and a plant survey on day 0; 20 and 30 mg/L, 1,000 m3 per day
water=$room/water three="outfall 3, pollutant 4 (chemical oxygen demand)" end='\002\000\006\000'
twenty='\000\000\0240\0101\000\000\0172\0104' thirty='\000\000\0360\0101\000\000\0172\0104' blank='\000\000\000\000\000\000\000\000'
{
    printf '%b' "\006\000\011\000\003\000\004\003\014\000\012\000\000\002$twenty\014\000\012\000\001\001$blank\014\000\012\000\002\000$blank"
    printf '%b' "\014\000\013\000\001\000$thirty\014\000\014\000\000\000$twenty$end"
} >"$water"
wet="$three, day record of day" taken="$three, enforcement survey on day" own="$three, plant survey on day"
rise="lines rise by number, stacks and outfalls together, then pollutant"
wet_only="only a line of an outfall has kind" dry_only="only a line of a stack has kind"
printf '3 4 1 50000 2 0 0\ntotal 0 0 0 50000 0\n' >"$room/water.out" && { cat "$example" && change "$water" 4 '\001'; } >"$room/plant"
printf '1 2 1 126500 4 1 3\n1 4 1 50000 2 0 0\ntotal 0 126500 0 50000 0\n' >"$room/plant.out"
{ bytes "$water" 50 0 && bytes "$water" 82 64; } >"$room/manual" && printf '3 4 2 40000 2 1 2\ntotal 0 0 0 40000 0\n' >"$room/manual.out"
{ bytes "$water" 50 0 && printf '%b' "$end"; } >"$room/no method" && { cat "$water" && cat "$example"; } >"$room/falls"
{ bytes "$water" 8 0 && bytes "$example" 223 14; } >"$room/hours" && before_end "\014\000\013\000\000\000$pair" >"$room/by day"
{ bytes "$water" 78 0 && bytes "$room/fuel" 235 219 && printf '%b' "$end"; } >"$room/wet fuel" && bytes "$water" 78 0 >"$room/wet open"
{ bytes "$water" 22 0 && bytes "$water" 82 36; } >"$room/wet turn" && change "$room/plant" 229 '\001' >"$room/no rise"
{ bytes "$water" 50 0 && bytes "$water" 78 64 && bytes "$water" 82 50; } >"$room/plant first" && bytes "$water" 30 0 >"$room/wet cut"
change "$water" 8 '\0313' >"$room/wet length" && change "$water" 54 '\002' >"$room/wet stopped"
# the sample of the import, and LINE of it made TEXT
text=$home/samples/days.csv days=$home/samples/days.rec
with_line() { head -n $(($1 - 1)) "$text" && printf '%b\n' "$2" && tail -n +$(($1 + 1)) "$text"; } # LINE TEXT
cp "$text" "$room/a name.csv" && cp "$text" "$room/-name.csv"
{ printf '0,00,R,41.57,' && zeros $((65536 - $(wc -c <"$text"))) | tr '\000' 0 && head -n 1 "$text" | cut -d , -f 5 && tail -n +2 "$text"; } >"$room/65536.csv"
{ cat "$room/65536.csv" && echo; } >"$room/65537.csv" && head -n 47 "$text" >"$room/unfinished.csv" && head -c -1 "$text" >"$room/no end.csv"
{ echo day,hour,state,mg/m3,m3/h && cat "$text"; } >"$room/title.csv" && sed "s/\$/$(printf '\r')/" "$text" >"$room/crlf.csv"
d=0 && while [ $d -lt 93 ]; do h=0 && while [ $h -lt 24 ]; do echo "$d,$h,S,," && h=$((h + 1)); done && d=$((d + 1)); done >"$room/93.csv"
head -n 2208 "$room/93.csv" >"$room/92.csv" && head -n 2209 "$room/93.csv" >"$room/day 92.csv"
d=0 && while [ $d -lt 92 ]; do printf '%b' "\0313\000\002\000\0$(printf %o $d)" && zeros 200 && d=$((d + 1)); done >"$room/92.rec"
# a filing of the quarter that agrees, and others
rows=$home/samples/quarter.out && echo yes >"$room/yes.out" && echo 'wrong 1 5' >"$room/wrong.out"
head -n 2 "$rows" >"$room/no total" && { cat "$room/no total" && echo '7 3'; } >"$room/cut row"
sed 3d "$rows" >"$room/two rows" && { cat "$rows" && echo; } >"$room/behind" && head -c -1 "$rows" >"$room/no end"
{ head -n 3 "$rows" && head -n 3 "$rows" | tail -n 1 && tail -n 1 "$rows"; } >"$room/four rows" && sed '3s/ [^ ]*$//' "$rows" >"$room/short"
sed "s/\$/$(printf '\r')/" "$rows" >"$room/crlf.txt" && sed '2d;1s/^7/8/' "$rows" >"$room/left out"
padded() { zeros $((65536 - $(wc -c <"$1"))) | tr '\000' 0 && cat "$1"; } # FILING: as one of 65,536 bytes, by leading zeros
padded "$rows" >"$room/65536.txt" && padded crates/account/stdout >"$room/most.txt" && { printf 0 && cat "$room/65536.txt"; } >"$room/65537.txt"
cp "$stated" "$room/a name.txt" && cp "$rows" "$room/-name.txt" && cp "$quarter" "$room/-quarter.rec" && echo 'total 0 0 0 0 0' >"$room/none due"
echo 'total 0 0 0 1 0' >"$room/one due" && sed '2s/ 4 21$/ 6 21/' samples/plant.out >"$room/days.txt" && { sed -n 2p "$rows" && sed 2d "$rows"; } >"$room/order"
mkdir "$room/tools" && for tool in cat dirname readlink; do ln -s "$(command -v $tool)" "$room/tools"; done
mkdir "$room/kit" && cat >"$room/kit/rt" <<END
#!/bin/sh
[ "\$1" != doc ] || exec echo /none/docs/START-HERE.md
exec "$(command -v rt)" "\$@"
END
chmod +x "$room/kit/rt"
for tool in awk od head; do # each fails where the words need it, and only there: rt needs them too
    mkdir "$room/no $tool" && cat >"$room/no $tool/$tool" <<END
#!/bin/sh
case "\$*" in *words.awk* | *line.awk* | *filed.awk* | *'-t u1'* | *65537*) exit 127 ;; esac
exec $(command -v $tool) "\$@"
END
    chmod +x "$room/no $tool/$tool"
done

# ---- figures stated
expect "a quarter" 0 samples/quarter.out '' launch account samples/quarter.rec
expect "the example" 0 "$stated" '' launch account "$example"
expect "a plant, a stack and an outfall" 0 samples/plant.out '' launch account samples/plant.rec
expect "an outfall, a missing day with a survey" 0 "$room/water.out" '' launch account "$water"
expect "an outfall, a missing day without" 0 "$room/manual.out" '' launch account "$room/manual"
expect "a stack, and an outfall of the same number" 0 "$room/plant.out" '' launch account "$room/plant"
expect "65,536 bytes" 0 crates/account/stdout '' launch account crates/account/stdin
expect "standard input" 0 "$stated" '' launch account <"$example"
expect "- for standard input" 0 "$stated" '' launch account - <"$example"
expect "a pipe that hands out pieces" 0 samples/quarter.out '' in_pieces launch account
expect "through symbolic links, from another folder" 0 "$stated" '' from "$room" run "$room/link" account "a name.rec"
expect "a name that begins with -" 0 "$stated" '' from "$room" launch account -- -name.rec
expect "an empty file" 0 "$room/zero.out" "the input is empty" launch account "$room/empty"
expect "/dev/null" 0 "$room/zero.out" "the input is empty" launch account /dev/null
expect "nothing on standard input" 0 "$room/zero.out" "the input is empty" launch account </dev/null
expect "the loader's variables" 0 "$stated" '' with_variables launch account "$example"
expect "a file, standard input closed" 0 "$stated" '' no_stdin launch account "$example"
expect "standard error closed" 0 "$stated" '' no_stderr launch account "$example"
cat "$stated" "$stated" "$stated" "$stated" >"$room/four.out"
expect "four at once" 0 "$room/four.out" '' four_at_once launch account "$example"
if command -v script >/dev/null; then expect "a terminal" 0 "$room/zero.out" "waiting for a record file" at_terminal account
else skip "a terminal" "there is no program script here"; fi

# ---- refusals of a record or a file
refused "a cut file" 1 14 "$one, day record of day 0: the file has only 86 of its 205 bytes" "$room/cut"
refused "a text" 1 0 "no record file at all" README.md
refused "an unknown kind" 1 219 "$one, after the day record of day 0: its kind would be 7, and must be 1 to 6 or 9 to 12" "$room/kind"
refused "a wrong length" 1 14 "$one, day record of day 0: its length is 205, and must be 203" "$room/length"
refused "a line feed at the end" 1 223 "after the end record of $one: no more than 1 byte is left there" "$room/feed"
refused "a last line not closed" 2 219 "$one, the file's end, after the day record of day 0" "$room/open"
refused "a day out of turn" 2 14 "$one, day record of day 1, after the head" "$room/turn"
refused "a file put behind itself" 2 223 "$one, head, after the end record of $one" "$room/twice"
refused "a survey in a stopped hour" 5 219 "$one, enforcement survey at hour 23 of the period (day 0, hour 23)" "$room/stopped"
refused "fuel, and no batch" 6 219 "$one, end record" "$room/dark"
refused "fuel, and no table entry" 7 235 "$one, end record: furnace 4, coal 4, 300 MW, volatile mark 1" "$room/boiler"
refused "an outfall's file, cut" 1 22 "$wet 1: the file has only 8 of its 14 bytes" "$room/wet cut"
refused "an outfall's day as long as a stack's" 1 8 "$wet 0: its length is 203, and must be 12, as its kind is 10" "$room/wet length"
refused "a stack's day in an outfall's line" 2 8 "$wet 0, after the head: $dry_only 2" "$room/hours"
refused "fuel in an outfall's line" 2 78 "$three, fuel batch number 1, after the plant survey on day 0: $dry_only 5" "$room/wet fuel"
refused "an outfall's survey in a stack's line" 2 219 "$one, enforcement survey on day 0, after the day record of day 0: $wet_only 11" "$room/by day"
refused "a stack after an outfall of a higher number" 2 82 "$one, head, after the end record of $three: $rise" "$room/falls"
refused "an outfall behind its stack, with a stack's pollutant" 2 223 "outfall 1, head, after the end record of $one: $rise, which is 1 here" "$room/no rise"
refused "an outfall's day out of turn" 2 22 "$wet 2, after the day record of day 0" "$room/wet turn"
refused "an outfall's enforcement survey after the plant's" 2 64 "$taken 1, after the plant survey on day 0" "$room/plant first"
refused "an outfall's line not closed" 2 78 "$three, the file's end, after the plant survey on day 0" "$room/wet open"
refused "a survey on a stopped day" 5 50 "$taken 2" "$room/wet stopped"
refused "no method left" 18 50 "$three, end record: running days 2, missing days 1, the first of them day 1, and no survey" "$room/no method"
refused "no method left, what to do" 18 50 "add surveys, of which one on any running day is enough" "$room/no method"
refused "65,537 bytes" 13 0 "65,536 bytes" "$room/65537"
refused "a file for the library" 13 0 "65,536 bytes" samples/over.rec
expect "input without end" 1 samples/over.out "65,536 bytes" endless launch account
expect "a refusal, standard error closed" 1 samples/over.out '' no_stderr launch account samples/over.rec

# ---- refusals of a field
field "pollutant 4" "$example" 6 '\004' 14 6 "stack 1, head: pollutant is 4, and must be 1 to 3 under a stack's head"
field "automatic required 2" "$example" 7 '\002' 14 7 "$one, head: automatic required is 2, and must be 0 or 1"
field "furnace 0" "$example" 8 '\000' 14 8 "$one, head: furnace is 0, and must be 1 to 4"
field "coal 9" "$example" 9 '\011' 14 9 "$one, head: coal is 9, and must be 1 to 7"
field "8 MW" "$example" 10 '\010\000' 14 10 "$one, head: MW is 8, and must be 9 to 65535"
field "mark 5" "$example" 12 '\005' 14 12 "$one, head: volatile mark is 5, and must be 1 to 4"
field "93 days" "$example" 13 '\0135' 14 13 "$one, head: number of days is 93, and must be 1 to 92"
field "coal 0 in the third line" "$quarter" 37863 '\000' 14 37863 "stack 7, pollutant 3 (dust), head: coal is 0, and must be 1 to 7"
field "run mask, bit 24" "$example" 22 '\001' 15 19 "$day: the run mask has bits past hour 23: 24"
field "measured mask, bit 31" "$example" 26 '\0200' 15 23 "$day: the measured mask has bits past hour 23: 31"
field "measured, not running" "$example" 23 '\073' 15 23 "$day: the measured mask has hours that the run mask has not: 4 5"
field "0 kg" "$room/fuel" 223 '\000\000\000\000\000' 16 223 "$batch 1: kg is 0, and must be at least 1"
much="which takes the line's fuel over 10,000,000,000 kg; before it there are"
field "too much fuel" "$room/fuel" 239 '\002' 16 239 "$batch 2: kg is 2, $much 9999999999 kg"
field "2^63 kg" "$room/fuel" 230 '\0200' 16 223 "$batch 1: kg is 9,007,199,254,740,992 or more, $much 0 kg"
field "sulphur 2,001" "$room/fuel" 231 '\0321\007' 16 231 "$batch 1: sulphur, in 0.01 %, is 2001, and must be 0 to 2000"
field "ash 10,001" "$room/fuel" 249 '\021\047' 16 249 "$batch 2: ash, in 0.01 %, is 10001, and must be 0 to 10000"
field "survey hour 24" "$room/surveys" 223 '\030' 17 223 "$survey 24 of the period (day 1, hour 0): its hour is 24, and must be 0 to 23"
field "plant survey hour 65,535" "$room/surveys" 237 '\0377\0377' 17 237 "$plant 65535 of the period (day 2730, hour 15): its hour is 65535"
field "pollutant 3 of an outfall" "$water" 6 '\003' 14 6 "outfall 3, head: pollutant is 3, and must be 4 or 5 under an outfall's head"
field "93 days of an outfall" "$water" 7 '\0135' 14 7 "$three, head: number of days is 93, and must be 1 to 92"
field "pollutant 6 in the second line" "$room/plant" 229 '\006' 14 229 "outfall 1, head: pollutant is 6, and must be 4 or 5"
field "state 3" "$water" 41 '\003' 15 41 "$wet 2: its state is 3, and must be 0 to 2 (0 stopped, 1 missing, 2 measured)"
field "survey day 3" "$water" 54 '\003' 17 54 "$taken 3: its day is 3, and must be 0 to 2, as the head's days are 3"
field "plant survey day 65,535" "$water" 68 '\0377\0377' 17 68 "$own 65535: its day is 65535, and must be 0 to 2"

# ---- refusals of a reading
is="is measured, and its" most="and must be at most" bytes="has bytes other than zero"
missing="is not measured but missing, and its" stopped="is not measured but stopped, and its"
field "concentration not a number, hour 0" "$example" 27 '\000\000\0300\0177' 4 27 "$day: hour 0 $is concentration is not a number"
field "flow infinite, hour 0" "$example" 31 '\000\000\0200\0177' 4 31 "$day: hour 0 $is flow is infinite"
field "concentration negative, hour 23" "$quarter" 211 '\000\000\0240\0301' 4 211 "$seven 0: hour 23 $is concentration is negative: -20 mg/m3"
field "flow over, hour 23" "$quarter" 215 '\0201\0226\0230\0112' 4 215 "$seven 0: hour 23 $is flow is 5000000.5 m3/h, $most 5,000,000"
field "concentration over, day 91" "$quarter" 18682 '\006\0100\034\0106' 4 18682 "$seven 91: hour 0 $is concentration is 10000.0059 mg/m3, $most 10,000.00"
field "concentration, hour 0 missing" "$example" 23 '\012' 4 27 "$day: hour 0 $missing concentration $bytes"
field "flow, hour 0 missing" "$example" 23 '\012\000\000\000\000\000\000\000' 4 31 "$day: hour 0 $missing flow $bytes"
field "concentration, hour 23 stopped" "$example" 211 '\001' 4 211 "$day: hour 23 $stopped concentration $bytes"
field "flow, hour 23 stopped" "$example" 218 '\0200' 4 215 "$day: hour 23 $stopped flow $bytes"
field "concentration of a survey" "$room/surveys" 228 '\0301' 4 225 "$survey 0 of the period (day 0, hour 0): concentration is negative: -20 mg/m3"
field "flow of a survey" "$room/surveys" 243 '\000\000\0300\0377' 4 243 "$plant 1 of the period (day 0, hour 1): flow is not a number"
field "concentration of a day negative" "$water" 17 '\0301' 4 14 "$wet 0: the day $is concentration is negative: -20 mg/L"
field "flow of a day over" "$water" 18 '\0201\0226\0230\0112' 4 18 "$wet 0: the day $is flow is 5000000.5 m3 per day, $most 5,000,000"
field "concentration, day 1 missing" "$water" 31 '\0200' 4 28 "$wet 1: the day $missing concentration $bytes"
field "flow, day 2 stopped" "$water" 46 '\001' 4 46 "$wet 2: the day $stopped flow $bytes"
field "concentration of a survey by day over" "$water" 56 '\006\0100\034\0106' 4 56 "$taken 1: concentration is 10000.0059 mg/L, $most 10,000.00"
field "flow of a survey by day" "$water" 74 '\000\000\0300\0377' 4 74 "$own 0: flow is not a number"
refused "line ends turned to CR LF" 4 159 "$seven 0: hour 16" "$room/crlf"

# ---- words that cannot be found, and bytes that are kept for them
expect "a FIFO" 1 "$room/coal.out" "$one, head: coal is 9" by_fifo launch account
expect "no folder for temporary files" 1 "$room/coal.out" "$not_found" temporary "$room/none" launch account <"$room/coal"
expect "no folder for temporary files, a sound file" 0 "$stated" '' temporary "$room/none" launch account <"$example"
expect "no awk" 1 "$room/coal.out" "$not_found" broken "no awk" launch account "$room/coal"
expect "no od" 1 "$room/coal.out" "$not_found" broken "no od" launch account "$room/coal"
no_answer "input that cannot be kept" "could not be read, or not be kept" broken "no head" launch account <"$example"
expect "nothing stays behind" 0 "$stated" '' left_behind launch account <"$example"
expect "nothing stays behind of a launcher that is stopped" 143 /dev/null '' left_behind killed TERM account
expect "nothing stays behind of a launcher that is killed" 137 /dev/null '' left_behind killed KILL account

# ---- nothing stated
no_answer "no such file" "there is no file" launch account "$room/none"
no_answer "an empty name" "there is no file ''" launch account ''
no_answer "a folder" "is a folder" launch account "$room/folder"
no_answer "a folder as standard input" "could not be read" launch account <"$room/folder"
no_answer "a full disk" "could not be written" to_full_disk launch account "$example"
no_answer "a reader that is gone" "could not be written" reader_gone launch account "$example"
no_answer "standard input closed" "standard input is closed" no_stdin launch account
no_answer "standard output closed" "standard output is closed" no_stdout launch account "$example"
no_answer "no toolchain" "the Rattle toolchain is not installed" no_rt launch account "$example"
expect "a toolchain without its loader" 0 "$stated" '' other_kit launch account "$example"

# ---- records of a text
expect "a text" 0 "$days" '' launch import "$text"
expect "a text, as standard input" 0 "$days" '' launch import <"$text"
expect "a text, - for standard input" 0 "$days" '' launch import - <"$text"
expect "a text, through a pipe" 0 "$days" '' in_two "$text" launch import
expect "a text, through symbolic links, from another folder" 0 "$days" '' from "$room" run "$room/link" import "a name.csv"
expect "a text, a name that begins with -" 0 "$days" '' from "$room" launch import -- -name.csv
expect "a text of 65,536 bytes, by leading zeros" 0 "$days" '' launch import "$room/65536.csv"
expect "a text of 92 days" 0 "$room/92.rec" '' launch import "$room/92.csv"
expect "an empty text" 0 /dev/null "the text is empty" launch import "$room/empty"
expect "an empty text, /dev/null" 0 /dev/null "the text is empty" launch import /dev/null
expect "an empty text, as standard input" 0 /dev/null "the text is empty" launch import </dev/null
expect "a text, standard input closed" 0 "$days" '' no_stdin launch import "$text"
expect "a text, standard error closed" 0 "$days" '' no_stderr launch import "$text"
expect "a text, the loader's variables" 0 "$days" '' with_variables launch import "$text"
expect "a text, no folder for temporary files" 0 "$days" '' temporary "$room/none" launch import <"$text"
expect "a text, nothing stays behind" 0 "$days" '' left_behind launch import <"$text"
expect "a head, the records and an end" 0 samples/imported.rec '' as_file launch import "$text"
expect "these, accounted" 0 samples/imported.out '' launch account samples/imported.rec
expect "the records alone are no file" 1 samples/days.out "outside any line, day record of day 0, at the file's start" launch account "$days"

# ---- refusals of a text
form="its concentration is neither digits nor digits with a point between them" none="an hour with M or S has neither a concentration nor a flow"
line "an empty line" 7 '' 19 "line 7, '': it is empty"
line "a blank" 7 '0, 06,R,44,0712914' 19 "line 7, '0, 06,R,44,0712914': its hour is not digits alone"
line "no day" 7 ',06,R,44,0712914' 19 "its day is empty"
line "a lower case letter" 7 '0,06,r,44,0712914' 19 "its letter is none of R, M, S"
line "a comma for the point" 7 '0,06,R,44,0,0712914' 19 "it has 5 commas, and must have 4"
line "a point with no digit behind it" 7 '0,06,R,44.,0712914' 19 "$form"
line "a point with no digit before it" 7 '0,06,R,.5,0712914' 19 "$form"
line "a sign" 7 '0,06,R,-44,0712914' 19 "$form"
line "three decimals" 7 '0,06,R,44.000,0712914' 19 "its concentration has 3 decimals, and may have at most 2"
line "a flow with a point" 7 '0,06,R,44,0712914.0' 19 "its flow is not digits alone"
line "a measured hour without a flow" 7 '0,06,R,44,' 19 "its flow is empty"
line "a missing hour with a reading" 10 '0,09,M,44,' 19 "$none"
line "a stopped hour with a reading" 31 '1,06,S,,0' 19 "$none"
line "an hour twice" 8 '0,06,R,44,0712914' 19 "it is not of day 0, hour 7, which is due"
line "a day left out" 25 '2,00,R,44,0712914' 19 "it is not of day 1, hour 0, which is due"
line "bytes that are not for a terminal" 7 '\0033[2J\000\0377\0134n' 19 "line 7, '\x1b[2J\x00\xff\x5cn': it has 0 commas"
line "a long line" 7 "0,06,R,$(zeros 100 | tr '\000' 0)44.125,1" 19 "00' and 55 bytes more: its concentration has 3 decimals"
line "a concentration over" 7 '0,06,R,10000.01,0712914' 20 "line 7, '0,06,R,10000.01,0712914': its concentration is over 10,000 mg/m3"
line "a flow over" 7 '0,06,R,44,5000001' 20 "its flow is over 5,000,000 m3/h"
line "a number of a hundred digits" 7 "0,06,R,44,1$(zeros 99 | tr '\000' 0)" 20 "its flow is over 5,000,000 m3/h"
not_taken "a title" 19 1 "line 1, 'day,hour,state,mg/m3,m3/h': its day is not digits alone" "$room/title.csv"
not_taken "lines that end with CR LF" 19 1 "line 1, '0,00,R,41.57,0639280\x0d': it ends with CR LF, and must end with LF alone" "$room/crlf.csv"
not_taken "a last day that is not finished" 19 47 "it is the last line, and day 1 lacks hour 23" "$room/unfinished.csv"
not_taken "a last line without its LF" 19 48 "no LF ends it" "$room/no end.csv"
not_taken "a 93rd day" 20 2209 "day 92 is past day 91, the last that a text may have" "$room/93.csv"
not_taken "a 93rd day, of one line" 19 2209 "it is the last line, and day 92 lacks hours 1 to 23" "$room/day 92.csv"
not_taken "records for a text" 19 1 "must have 4" "$days"
not_taken "what to do" 19 1 "what to do: export it again" "$room/title.csv"
not_taken "a text of 65,537 bytes" 13 0 "longer than the 65,536 bytes" "$room/65537.csv"
expect "a text without end" 1 /dev/null "longer than the 65,536 bytes" endless launch import
expect "a refused text, standard error closed" 1 /dev/null '' no_stderr launch import "$room/title.csv"
unquoted="line 1 of the text (the first is 1) is malformed or misplaced"
expect "a refused text, no folder for temporary files" 1 /dev/null "$unquoted" temporary "$room/none" launch import <"$room/title.csv"
expect "a refused text, no awk" 1 /dev/null "$unquoted" broken "no awk" launch import "$room/title.csv"

# ---- no records
no_answer "no such text" "there is no file" launch import "$room/none.csv"
no_answer "a folder for a text" "is a folder, not a text; nothing is brought in" launch import "$room/folder"
no_answer "a folder as standard input of the import" "could not be read" launch import <"$room/folder"
no_answer "records for a full disk" "the records could not be written" to_full_disk launch import "$text"
no_answer "records for a reader that is gone" "the records could not be written" reader_gone launch import "$text"
no_answer "a text, standard input closed, no name" "standard input is closed" no_stdin launch import
no_answer "records for a closed standard output" "standard output is closed" no_stdout launch import "$text"
no_answer "a text, no toolchain" "the Rattle toolchain is not installed" no_rt launch import "$text"
if command -v script >/dev/null; then
    no_answer "records for a terminal" "not for a terminal" to_terminal
    expect "a text from a terminal" 0 /dev/null "waiting for a text" at_terminal import
else skip "records for a terminal, a text from one" "there is no program script here"; fi

# ---- filings that agree
says "a filing" yes '' "$quarter" "$rows"
says "a filing of a plant with an outfall" yes '' samples/plant.rec samples/plant.out
says "a filing for 65,536 bytes" yes '' crates/account/stdin crates/account/stdout
says "a filing of 65,536 bytes, by leading zeros" yes '' "$quarter" "$room/65536.txt"
says "a filing of 65,536 bytes for a file of as many" yes '' crates/account/stdin "$room/most.txt"
says "a filing for an empty file" yes "the record file is empty: no row is due, and none was filed" "$room/empty" "$room/none due"
says "a filing for /dev/null" yes "the record file is empty" /dev/null "$room/none due"
expect "a filing, as standard input" 0 "$room/yes.out" '' launch check "$quarter" - <"$rows"
expect "a filing, through a pipe" 0 "$room/yes.out" '' in_two "$rows" launch check "$quarter" -
expect "a filing, its record file as standard input" 0 "$room/yes.out" '' launch check - "$rows" <"$quarter"
expect "a filing, its record file through a pipe that hands out pieces" 0 "$room/yes.out" '' in_pieces launch check - "$rows"
expect "a filing, both through FIFOs" 0 "$room/yes.out" '' by_two_fifos "$quarter" "$rows" launch check
expect "a filing, through symbolic links, from another folder" 0 "$room/yes.out" '' from "$room" run "$room/link" check "a name.rec" "a name.txt"
expect "a filing, names that begin with -" 0 "$room/yes.out" '' from "$room" launch check -- -quarter.rec -name.txt
expect "a filing, standard input closed" 0 "$room/yes.out" '' no_stdin launch check "$quarter" "$rows"
expect "a filing, standard error closed" 0 "$room/yes.out" '' no_stderr launch check "$quarter" "$rows"
expect "a filing, the loader's variables" 0 "$room/yes.out" '' with_variables launch check "$quarter" "$rows"
expect "a filing, nothing stays behind" 0 "$room/yes.out" '' left_behind launch check "$quarter" "$rows"
expect "a filing, nothing stays behind of a launcher that is stopped" 143 /dev/null '' left_behind killed TERM check - "$rows"
expect "a filing, no awk" 0 "$room/yes.out" '' broken "no awk" launch check "$quarter" "$rows"

# ---- filings that are wrong
sulphur="line 1, stack 7, pollutant 1 (sulphur dioxide)" oxides="line 2, stack 7, pollutant 2 (nitrogen oxides)"
says "the sample" "$(cat samples/filed.out)" "$oxides, missing hours: 700 is filed, and 699 is right" "$quarter" samples/filed.txt
filing "the stack" 1 '8 1 1 55268383 2131 70 51' 'wrong 0 0' "$sulphur, stack: 8 is filed, and 7 is right"
filing "the pollutant" 2 '7 3 2 76764233 2131 699 101' 'wrong 1 1' "$oxides, pollutant: 3 (dust) is filed, and 2 (nitrogen oxides) is right"
filing "a pollutant that there is not" 2 '7 6 2 76764233 2131 699 101' 'wrong 1 1' "pollutant: 6 is filed, and 2 (nitrogen oxides) is right"
filing "the method" 2 '7 2 1 76764233 2131 699 101' 'wrong 1 2' "$oxides, method: 1 (automatic) is filed, and 2 (manual) is right"
filing "the grams" 2 '7 2 2 77939732 2131 699 101' 'wrong 1 3' "$oxides, grams: 77939732 is filed, and 76764233 is right"
filing "the grams of the third row" 3 '7 3 4 11506000 2131 700 101' 'wrong 2 3' "line 3, stack 7, pollutant 3 (dust), grams: 11506000 is filed"
filing "running hours" 1 '7 1 1 55268383 2208 70 51' 'wrong 0 4' "$sulphur, running hours: 2208 is filed, and 2131 is right"
filing "the first missing hour itself" 1 '7 1 1 55268383 2131 70 50' 'wrong 0 6' "$sulphur, first missing hour plus 1: 50 is filed, and 51 is right"
filing "two numbers, of which the first is named" 1 '7 1 1 55268384 2131 71 51' 'wrong 0 3' "$sulphur, grams: 55268384 is filed, and 55268383 is right"
filing "19 digits" 1 '7 1 1 9007199254740993001 2131 70 51' 'wrong 0 3' "grams: 9007199254740993001 is filed, and 55268383 is right"
filing "20 digits" 1 '7 1 1 10000000000000000000 2131 70 51' 'wrong 0 3' "grams: 10000000000000000000 is filed, and 55268383 is right"
filing "2^64 - 1" 2 '7 2 2 76764233 18446744073709551615 699 101' 'wrong 1 4' "running hours: 18446744073709551615 is filed, and 2131 is right"
filing "2^64 - 1, and zeros" 2 '7 2 2 76764233 2131 699 00018446744073709551615' 'wrong 1 6' "plus 1: 18446744073709551615 is filed, and 101 is right"
filing "a total of 2^64 - 1" 4 'total 55268383 76764233 55013838446 0 18446744073709551615' 'wrong 3 4' "in grams: 18446744073709551615 is filed"
filing "leading zeros" 2 '07 002 2 076764234 2131 699 101' 'wrong 1 3' "grams: 76764234 is filed, and 76764233 is right"
dust="the total of pollutant 3 (dust), in grams: 55013838447 is filed, and 55013838446 is right"
filing "a total" 4 'total 55268383 76764233 55013838447 0 0' 'wrong 3 2' "line 4, $dust"
filing "a total of water" 4 'total 55268383 76764233 55013838446 0 1' 'wrong 3 4' "pollutant 5 (ammonia nitrogen), in grams: 1 is filed, and 0 is right"
filing "what to do about grams" 2 '7 2 2 77939732 2131 699 101' 'wrong 1 3' "what to do: have the plant work the row out again by its method"
filing "what to do about a total" 4 'total 1 2 3 4 5' 'wrong 3 0' "what to do: add up the grams of this pollutant over the rows again, which are all right"
ammonia="line 2, outfall 2, pollutant 5 (ammonia nitrogen), missing days: 6 is filed, and 4 is right"
says "days of an outfall" 'wrong 1 5' "$ammonia" samples/plant.rec "$room/days.txt"
says "a total for an empty file" 'wrong 0 3' "line 1, the total of pollutant 4 (chemical oxygen demand), in grams: 1 is filed" "$room/empty" "$room/one due"
says "the filing of another file" 'wrong 0 0' "$sulphur, stack: 2 is filed, and 7 is right" "$quarter" samples/plant.out
says "rows in another order" 'wrong 0 1' "$sulphur, pollutant: 2 (nitrogen oxides) is filed" "$quarter" "$room/order"
expect "a wrong filing, both through FIFOs" 1 "$room/wrong.out" "$oxides, missing hours" by_two_fifos "$quarter" samples/filed.txt launch check
expect "a wrong filing, its record file as standard input" 1 "$room/wrong.out" "$oxides, missing hours" launch check - samples/filed.txt <"$quarter"
unnamed="wrong: field 5 of row 1, both counted from 0, is the first number that is not what the rules give for this file"
expect "a wrong filing, no awk" 1 "$room/wrong.out" "$unnamed" broken "no awk" launch check "$quarter" samples/filed.txt
expect "a wrong filing, no od" 1 "$room/wrong.out" "$unnamed" broken "no od" launch check "$quarter" samples/filed.txt
expect "a wrong filing, standard error closed" 1 "$room/wrong.out" '' no_stderr launch check "$quarter" samples/filed.txt

# ---- filings that are refused
blank_too_many="it has a blank too many"
filing "an empty line in a filing" 2 '' 'refused 19 2' "line 2, '': it is empty"
filing "two blanks" 2 '7 2  2 76764233 2131 699 101' 'refused 19 2' "$blank_too_many"
filing "a blank at the start" 2 ' 7 2 2 76764233 2131 699 101' 'refused 19 2' "$blank_too_many"
filing "a blank at the end" 2 '7 2 2 76764233 2131 699 101 ' 'refused 19 2' "$blank_too_many"
filing "a tab" 2 '7\t2 2 76764233 2131 699 101' 'refused 19 2' "line 2, '7\x092 2 76764233 2131 699 101': its number 1 is not digits alone"
filing "a sign in a filing" 2 '7 2 2 +76764233 2131 699 101' 'refused 19 2' "its number 4 is not digits alone"
filing "a point" 2 '7 2 2 76764233.0 2131 699 101' 'refused 19 2' "its number 4 is not digits alone"
filing "commas for thousands" 2 '7 2 2 76,764,233 2,131 699 101' 'refused 19 2' "its number 4 is not digits alone"
filing "eight numbers" 2 '7 2 2 76764233 2131 699 101 0' 'refused 19 2' "it has 8 numbers, and a row has 7"
filing "a short row that is not the last" 2 '7 2 2 76764233 2131 699' 'refused 19 2' "it has 6 numbers, and a row has 7"
filing "bytes of a filing that are not for a terminal" 2 '\0033[2J\000\0377\0134n' 'refused 19 2' "line 2, '\x1b[2J\x00\xff\x5cn': its number 1"
filing "a long line of a filing" 2 "7 2 2 $(zeros 100 | tr '\000' 0)76764233 2131 699 101," 'refused 19 2' "and 68 bytes more: its number 7 is not digits alone"
filing "three totals" 4 'total 55268383 76764233 55013838446' 'refused 19 4' "it has 3 totals, and must have 5"
filing "a total with a sign" 4 'total 55268383 76764233 55013838446 0 -0' 'refused 19 4' "its number 5 is not digits alone"
filing "another word for the totals" 4 'sum 55268383 76764233 55013838446 0 0' 'refused 19 4' "6 0 0': its number 1 is not digits alone"
filing "totals before a row" 2 'total 0 0 0 0 0' 'refused 19 3' "line 3, '7 3 4 55013838446 2131 700 101': it stands behind the line 'total'"
over="is over 18,446,744,073,709,551,615"
filing "2^64" 2 '7 2 2 18446744073709551616 2131 699 101' 'refused 20 2' "line 2, '7 2 2 18446744073709551616 2131 699 101': its number 4 $over"
filing "2^64, and zeros" 2 '7 2 2 76764233 00018446744073709551616 699 101' 'refused 20 2' "its number 5 $over"
filing "20 digits, all of them 9" 2 '7 2 2 76764233 2131 699 99999999999999999999' 'refused 20 2' "its number 7 $over"
filing "a total of 2^64" 4 'total 55268383 18446744073709551616 55013838446 0 0' 'refused 20 4' "its number 2 $over"
filing "a total of 30 digits, and zeros" 4 "total 0 0 000$(zeros 30 | tr '\000' 9) 0 0" 'refused 20 4' "its number 3 $over"
filing "a malformed line with 2^64" 2 '7 2 2 18446744073709551616 2131 699 101 ' 'refused 19 2' "$blank_too_many"
filing "2^64 before a malformed line" 2 '7 2 2 18446744073709551616 2131 699 101\nx' 'refused 20 2' "its number 4 $over"
filing "2^64 in a short row before the totals" 3 '7 3 18446744073709551616' 'refused 20 3' "line 3, '7 3 18446744073709551616': its number 3 $over"
filing "totals that are malformed behind a short row" 3 '7 3 4\ntotal x' 'refused 19 4' "line 4, 'total x': its number 1 is not digits alone"
filing "a total of 2^64, and a line behind it" 4 'total 0 0 0 0 18446744073709551616\nx' 'refused 20 4' "its number 5 $over"
says "a filing without totals" 'refused 19 3' "line 3 is not there: the filing ends, and the line 'total' is due" "$quarter" "$room/no total"
says "a filing that is cut in a row, at a line's end" 'refused 19 3' "line 3, '7 3': it has 2 numbers, and a row has 7" "$quarter" "$room/cut row"
says "a line behind the totals" 'refused 19 5' "line 5, '': it stands behind the line 'total', which has to be the last" "$quarter" "$room/behind"
says "a filing whose last line does not end" 'refused 19 4' "no LF ends it" "$quarter" "$room/no end"
says "a filing with CR LF" 'refused 19 1' "line 1, '7 1 1 55268383 2131 70 51\x0d': it ends with CR LF, and must" "$quarter" "$room/crlf.txt"
says "an empty filing" 'refused 19 1' "line 1 is not there: the filing ends" "$quarter" "$room/empty"
says "an empty filing for an empty file" 'refused 19 1' "line 1 is not there: the filing ends" "$room/empty" "$room/empty"
says "a record file for a filing" 'refused 19 1' "its number 1 is not digits alone" "$quarter" "$quarter"
says "a filing of malformed lines, what to do" 'refused 19 1' "what to do: have it sent as 'account' prints it" "$quarter" README.md
three_lines="in all; the record file has 3 lines, and so 21 are due"
says "two rows for three lines" 'refused 22 0' "the filing: 2 rows with 14 numbers $three_lines" "$quarter" "$room/two rows"
says "four rows for three lines" 'refused 22 0' "the filing: 4 rows with 28 numbers in all; the record file has 3 lines" "$quarter" "$room/four rows"
says "a last row that is short" 'refused 22 0' "the filing: 3 rows with 20 numbers in all; the record file has 3 lines" "$quarter" "$room/short"
says "no row for three lines" 'refused 22 0' "the filing: 0 rows with 0 numbers in all; the record file has 3 lines" "$quarter" "$room/none due"
says "rows for an empty file" 'refused 22 0' "the filing: 3 rows with 21 numbers in all; the record file has 0 lines" "$room/empty" "$rows"
says "wrong rows, and too few" 'refused 22 0' "nothing was compared" "$quarter" "$room/left out"
says "a filing of 65,537 bytes" 'refused 13 0' "the filing is longer than the 65,536 bytes" "$quarter" "$room/65537.txt"
says "a record file of 65,537 bytes" 'refused 13 0' "the record file is longer than the 65,536 bytes" "$room/65537" crates/account/stdout
says "a malformed filing for a file that is too long" 'refused 13 0' "the record file is longer" samples/over.rec README.md
says "a record file that is refused" 'refused 14 9' "$one, head: coal is 9, and must be 1 to 7" "$room/coal" "$stated"
says "a record file that is cut" 'refused 1 14' "$day: the file has only 86 of its 205 bytes" "$room/cut" "$stated"
says "a record file whose last line is open" 'refused 2 219' "$one, the file's end, after the day record of day 0" "$room/open" "$stated"
says "a text for a record file" 'refused 1 0' "no record file at all" README.md "$stated"
says "a record file and a filing that are both refused" 'refused 18 50' "$three, end record: running days 2" "$room/no method" README.md
echo 'refused 13 0' >"$room/13.out" && echo 'refused 14 9' >"$room/14.out" && echo 'refused 19 1' >"$room/19.out" && echo 'refused 22 0' >"$room/22.out"
expect "a filing without end" 1 "$room/13.out" "the filing is longer" endless launch check "$quarter" -
expect "a record file without end" 1 "$room/13.out" "the record file is longer" endless launch check - "$rows"
expect "a record file that is refused, through a pipe" 1 "$room/14.out" "$one, head: coal is 9" in_two "$room/coal" launch check - "$stated"
expect "a refused filing, standard error closed" 1 "$room/19.out" '' no_stderr launch check "$quarter" README.md
expect "a refused filing, no awk" 1 "$room/19.out" "line 1 of the filing (the first is 1) is neither a row" broken "no awk" launch check "$quarter" README.md
expect "a row count that is wrong, no od" 1 "$room/22.out" "there are not seven numbers for each line" broken "no od" launch check "$quarter" "$room/two rows"
expect "a record file that is refused, no od" 1 "$room/14.out" "$not_found" broken "no od" launch check "$room/coal" "$stated"

# ---- nothing said of a filing
no_answer "no such record file" "there is no file '$room/none'; nothing is said of the filing" launch check "$room/none" "$rows"
no_answer "no such filing" "there is no file '$room/none'; nothing is said of the filing" launch check "$quarter" "$room/none"
no_answer "a folder for a record file" "is a folder, not a record file; nothing is said" launch check "$room/folder" "$rows"
no_answer "a folder for a filing" "is a folder, not a filing; nothing is said" launch check "$quarter" "$room/folder"
no_answer "a folder as standard input for a filing" "the filing could not be read" launch check "$quarter" - <"$room/folder"
no_answer "a folder as standard input for a record file" "the record file could not be read" launch check - "$rows" <"$room/folder"
no_answer "standard input for both" "one of the two can come on standard input, not both" launch check - - <"$quarter"
no_answer "an answer for a full disk" "the answer could not be written" to_full_disk launch check "$quarter" "$rows"
no_answer "an answer for a reader that is gone" "the answer could not be written" reader_gone launch check "$quarter" "$rows"
no_answer "a filing, standard input closed, by -" "standard input is closed" no_stdin launch check "$quarter" -
no_answer "a record file, standard input closed, by -" "standard input is closed" no_stdin launch check - "$rows"
no_answer "an answer for a closed standard output" "standard output is closed" no_stdout launch check "$quarter" "$rows"
no_answer "a filing, no folder for temporary files" "nothing can be kept in $room/none" temporary "$room/none" launch check "$quarter" "$rows"
no_answer "a filing that cannot be kept" "could not be read, or not be kept" broken "no head" launch check "$quarter" "$rows"
no_answer "a filing, no toolchain" "the Rattle toolchain is not installed" no_rt launch check "$quarter" "$rows"
expect "a filing, a toolchain without its loader" 0 "$room/yes.out" '' other_kit launch check "$quarter" "$rows"
if command -v script >/dev/null; then expect "a record file from a terminal" 0 "$room/yes.out" "waiting for a record file" at_terminal check "$room/none due"
else skip "a record file from a terminal" "there is no program script here"; fi

# ---- usage
expect "help" 0 "$usage_text" '' launch help
expect "--help" 0 "$usage_text" '' launch --help
no_answer "no command" "usage:" launch
no_answer "an unknown command" "usage:" launch accounts "$example"
no_answer "two files" "usage:" launch account "$example" "$example"
no_answer "an unknown option" "usage:" launch account -x
no_answer "a name that begins with -, without --" "usage:" from "$room" launch account -name.rec
no_answer "two texts" "usage:" launch import "$text" "$text"
no_answer "an unknown option of the import" "usage:" launch import -x
no_answer "a check of nothing" "usage:" launch check
no_answer "a record file without a filing" "usage:" launch check "$quarter"
no_answer "a record file without a filing, behind --" "usage:" launch check -- "$quarter"
no_answer "two filings" "usage:" launch check "$quarter" "$rows" "$rows"
no_answer "an unknown option of the check" "usage:" launch check -x "$quarter" "$rows"
no_answer "a filing's name that begins with -, without --" "usage:" from "$room" launch check "$quarter" -name.txt

# ---- the programs by themselves, with the status that `main` ends with
program() { it=$1 && shift && "$home/crates/$it/out/$it" "$@"; }
printf '\000\000\000\000' >"$room/nothing due" && printf 'total 0 0 0 0 0\n' >>"$room/nothing due"
for one in account historian checker; do
    expect "the program $one, with an argument" 0 /dev/null "usage: $one" program "$one" "$example" <"$example"
    expect "the program $one, with an empty argument" 0 /dev/null "usage: $one" program "$one" '' <"$example"
    expect "the program $one, standard input closed" 0 /dev/null "$one: the input could not be read" no_stdin program "$one"
done
expect "the program checker, its input cut" 0 /dev/null "checker: the input could not be read" program checker <"$room/empty"
expect "the program checker, on what it answers" 0 "$room/yes.out" '' program checker <"$room/nothing due"
if [ -c /dev/full ]; then
    expect "the program account, its answer not written" 0 /dev/null "account: the answer could not be written" to_full_disk program account <"$example"
    expect "the program historian, its records not written" 0 /dev/null "historian: the records could not be written" to_full_disk program historian <"$text"
    expect "the program checker, its answer not written" 0 /dev/null "checker: the answer could not be written" to_full_disk program checker <"$room/nothing due"
else skip "answers that are not written" "there is no /dev/full here"
fi

# ---- a copy of the repository, in which things break
# with what is built, so that little is proved anew; what the checks kept beside it is left out
copy="$room/a copy" && mkdir "$copy" && tar -c --exclude=incremental .ci crates crates.txt doarpezwim | tar -x -C "$copy" || exit 2
printf '#!/bin/sh\nexit 7\n' >"$copy/.ci/run"
expect "test hands on the status of .ci/run" 7 /dev/null '' run "$copy/doarpezwim" test
if [ "$(id -u)" -eq 0 ]; then skip "an unreadable file, folders that are another's" "root may read and write all"
else
    chmod 000 "$room/empty" && no_answer "an unreadable file" "not allowed to read" launch account "$room/empty"
    no_answer "an unreadable record file of a filing" "not allowed to read" launch check "$room/empty" "$rows"
    no_answer "an unreadable filing" "not allowed to read" launch check "$quarter" "$room/empty"
    for folder in "$copy/out" "$copy/crates/account/out"; do
        mkdir -p "$folder" && chmod a-w "$folder"
        no_answer "a folder that is another's" "you may not write in $folder" run "$copy/doarpezwim" account "$example"
        chmod u+w "$folder"
    done
fi
expect "a launcher without its words" 1 "$room/coal.out" "$not_found" run "$copy/doarpezwim" account "$room/coal"
expect "a launcher without its words for a filing" 1 "$room/wrong.out" "$unnamed" run "$copy/doarpezwim" check "$quarter" samples/filed.txt
rm "$copy/crates/account/out/account"
expect "a program that is gone is built again" 0 "$stated" proving run "$copy/doarpezwim" account "$example"
rm "$copy/crates/checker/out/checker"
expect "that of the check too" 0 "$room/yes.out" proving run "$copy/doarpezwim" check "$quarter" "$rows"
echo broken >>"$copy/crates/account/src/main.rt"
no_answer "sources that are not proved, over a program from older ones" "not proved and built" run "$copy/doarpezwim" account "$example"
echo broken >>"$copy/crates/historian/src/main.rt"
no_answer "the same of the import" "not proved and built" run "$copy/doarpezwim" import "$text"
no_answer "the same of the check, by the account's sources" "not proved and built" run "$copy/doarpezwim" check "$quarter" "$rows"

echo "$cases cases, $wrong not as expected"
[ "$wrong" -eq 0 ]
