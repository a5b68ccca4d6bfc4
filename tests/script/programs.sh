# What the program does, stand-ins and the real one, and what it is lent. A part of tests/script/run.

# ---- what the program does
# usage: does NAME STATUS OUT ERR BODY
does() {
    program "$5"
    fresh_and_built
    try "$1" "$2" 0 "$3" "$4" "$script" text
}
does 'the program fails' 2 'the report' 'report: the program failed' 'echo "the report"; exit 1'
does 'the program is killed' 2 '' '*report: the program failed' 'kill -9 $$'
does 'the program fails in a note' 2 '' 'half a note
report: the program failed' 'printf "half a note" >&2; exit 1'
does 'the program can not read' 2 '' 'report: standard input: X' 'echo "report: standard input: X" >&2'
does 'the program can not print' 2 '' "$note
report: standard output: X" 'echo "report: a note" >&2; printf "report: standard output: X" >&2'
does 'the program can not print, and says so by its status too' 2 '' "$note
report: standard output: X" 'echo "report: a note" >&2; printf "report: standard output: X" >&2; exit 1'
does 'lines that are shown read like failures' 0 'refused' '    report: standard input: X
    report: the program failed' \
    'echo refused; printf "    %s\n" "report: standard input: X" "report: the program failed" >&2'
does 'nothing is noted' 0 'the report' '' 'echo "the report"'

printf '  two spaces \\n \\0 \\\\ 100%%s %%d\n\n\ta tab * ? [a] $room `x`\n-n\nno line end' > "$room/notes"
program 'cat "$room/notes" >&2; echo "the report"'
fresh_and_built
run "$script" text
{ cat "$room/notes" && echo; } | cmp -s - "$room/err" || complain 'notes' 'they are not as the program wrote them'
expect 'notes' 0 0 'the report' '  two spaces*no line end'

program "echo 'report: some days' >&2; $holds_on; echo 'the report'"
fresh_and_built
rm "$room/go"
run "$script" text &
wait_for grep -qx 'report: some days' "$room/err" || complain 'a long check' 'the note does not come before it ends'
: > "$room/go"
wait
expect 'a long check' 0 0 'the report' 'report: some days'

# ---- what is closed, full, or without a reader
program "$reports"
fresh_and_built
open_gone
call "$script" text > "$room/out" 2>&-
expect 'standard error closed' 0 0 "$report" ''
call "$script" text > "$room/out" 2> /dev/full
expect 'standard error full' 0 0 "$report" ''
call "$script" text > "$room/out" 2>&6
expect 'standard error without a reader' 0 0 "$report" ''
call "$script" text >&- 2> "$room/err"
expect 'standard output closed' 2 0 '' 'report: standard output is closed'
call "$script" text >&- 2>&-
expect 'both closed' 2 0 '' ''
try 'standard input closed' 2 0 '' 'report: standard input is closed' "$script" <&-
try 'standard input closed, and a dash' 2 0 '' 'report: standard input is closed' "$script" - <&-
try 'standard input closed, and a file' 0 0 "$report" "$note" "$script" text <&-
call "$script" text <&- > "$room/out" 2>&-
expect 'only standard output open' 0 0 "$report" ''
call "$script" none > "$room/out" 2>&-
expect 'no such file, standard error closed' 2 0 '' ''
# a tool without one would take the next file that it opens for it
stand_in kit/find '[ -e /proc/self/fd/2 ] || : > "$room/bare"; exec "$room/tools/find" "$@"'
call "$script" text > "$room/out" 2>&-
[ ! -e "$room/bare" ] || complain 'standard error closed' 'and a tool has none'
expect 'standard error closed, with tools' 0 0 "$report" ''
rm "$room/kit/find"

# ---- the real program
cp "$room/real/report" "$room/programs"
fresh_and_built
read_one='order 1 shares 2 masks 1 wires 9
function product'
printf 'ORDER = 1\nMASKS = [r0]\ns00 r0\ns11 (s01 s10) r0\n' > broken.txt
printf 'ORDER = 1\nMASKS = [r0]\ns00 | r0\n' > bar.txt
printf 'ORDER = 1\nMASKS = [r0]\ns00\tr\200\303\244\377\033\177 r0 | r0\n' > bytes.txt
head -c 4097 /dev/zero > long.txt
holds="$read_one
NI holds
SNI holds"
broken="$read_one
NI broken 6 by both
SNI broken 6 by both"
parts='report: NI is broken*
    wire 6, line 4*: s01 s10
    together: s01 s10
    depends on 2 of a?s shares and 2 of b?s, 1 of each allowed
report: SNI is broken*
    wire 6, line 4*: s01 s10
    together: s01 s10
    depends on 2 of a?s shares and 2 of b?s, 1 of each allowed'
why_bar='report: line 3, byte 5: *
    s00 | r0
        ^'
why_long='report: line 1, byte 4097: *longer than 4096 bytes*'

try 'a gadget that holds' 0 0 "$holds" '' "$script" isw-1.txt
try 'a gadget on standard input' 0 0 "$holds" '' "$script" < isw-1.txt
try 'a break' 0 0 "$broken" "$parts" "$script" broken.txt
try 'a refused text' 0 0 'refused 7 at 27' "$why_bar" "$script" bar.txt
try 'no text' 0 0 'refused 2 at 0' 'report: line 1, byte 1: ?*' "$script" empty
try 'a text too long' 0 0 'refused 1 at 4096' "$why_long" "$script" long.txt
try 'a text without an end' 0 0 'refused 1 at 4096' "$why_long" "$script" < /dev/zero
call "$script" bar.txt > "$room/out" 2>&1
expect 'a refused text, both in one place' 0 0 "refused 7 at 27
$why_bar" ''
call "$script" broken.txt > "$room/out" 2>&1
expect 'a break, both in one place' 0 0 "$broken
$parts" ''
run "$script" bytes.txt
[ "$(LC_ALL=C tr -d '\n\040-\176' < "$room/err" | wc -c)" -eq 0 ] || complain 'odd bytes' 'they are shown as they are'
expect 'odd bytes' 0 0 'refused 4 at 23' 'report: line 3, byte 1: *
    s00[?]r[?][?][?][?][?][?] r0 | r0
    ^*'
call "$script" bar.txt > "$room/out" 2>&-
expect 'a refused text, standard error closed' 0 0 'refused 7 at 27' ''
call "$script" broken.txt > "$room/out" 2> /dev/full
expect 'a break, standard error full' 0 0 "$broken" ''
call "$script" broken.txt > "$room/out" 2>&6
expect 'a break, standard error without a reader' 0 0 "$broken" ''
call "$script" isw-1.txt > /dev/full 2> "$room/err"
expect 'standard output full' 2 0 '' 'report: standard output: ?*'
call "$script" isw-1.txt >&6 2> "$room/err"
expect 'standard output without a reader' 2 0 '' 'report: standard output: ?*'
call "$script" isw-1.txt >&6 2>&6
expect 'both without a reader' 2 0 '' ''
try 'a folder on standard input' 2 0 '' 'report: standard input: ?*' "$script" < /
try 'figure 8' 0 0 'order 7 shares 8 masks 24 wires 180
function product
NI holds
SNI holds' 'report: up to 2248742599782 sets to look at, some * hours if each is visited, *' "$script" figure-8.txt
# each line adds most masks, always in another order: no search is done soon, and this one is ended here
{
    printf 'ORDER = 7\nMASKS = [r0'
    for k in $(seq 63); do printf ', r%s' "$k"; done
    printf ']\n'
    for i in $(seq 0 7); do
        printf 'a%s' "$i"
        for k in $(seq 55); do printf ' r%s' $((k * (2 * i + 3) % 64)); done
        echo
    done
} > dense.txt
PATH=$path timeout 20 "$script" dense.txt > "$room/out" 2> "$room/err" &
wait_for grep -q 'sets to look at' "$room/err" || complain 'a long check' 'that it takes long is not said beforehand'
sleep 0.5
{ kill "$!" && wait "$!" || :; } 2> /dev/null
expect 'a long check' none 0 '' 'report: function other: *
report: up to * sets to look at, some * days if each is visited, *'
