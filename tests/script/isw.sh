# The script `isw`: its arguments, what its program does, and both scripts in one folder. A part of tests/script/run.

# ---- the kit
kit "$builds"
text='the text of order 3'
isw_built='isw: building: *
isw: 1 of 2: basics
isw: 2 of 2: isw'
isw_linked='isw: building: *
isw: 2 of 2: isw'
isw_unchanged='isw: building: *'
no_kit="isw: *'rt' has to be on the path"
fresh
path=$without_kit
try 'isw, no kit, not built' 2 0 '' "$no_kit" "$isw" 3
path=$with_kit
try 'isw, the first run' 0 1 "$text" "$isw_built" "$isw" 3
path=$without_kit
try 'isw, no kit, built' 0 0 "$text" '' "$isw" 3
echo more >> "$folder/crates/limits/src/lib.rt"
try 'isw, no kit, a source changed' 2 0 '' "$no_kit" "$isw" 3

# ---- arguments: what can not be an order is told without the program, and what a number is worth by the program
usage='usage: ./isw ORDER *'
fresh
try 'isw -h' 0 0 "$usage" '' "$isw" -h
try 'isw --help' 0 0 "$usage" '' "$isw" --help
call "$isw" --help > /dev/full 2> "$room/err"
expect 'isw --help, standard output full' 2 0 '' '?*'
call "$isw" --help >&- 2> "$room/err"
expect 'isw --help, standard output closed' 2 0 '' 'isw: standard output is closed'
try 'isw, no argument' 2 0 '' "isw: $usage" "$isw"
try 'isw, two arguments' 2 0 '' "isw: $usage" "$isw" 3 3
try 'isw, an argument after --help' 2 0 '' "isw: $usage" "$isw" --help 3
for word in '' three 3x ' 3' '3
' -3 +3 - -- '*' '100%s \n'; do
    try "isw, the word '$word'" 2 0 '' "isw: $usage" "$isw" "$word"
done
path=$with_kit
isw_program 'echo "$# <$1>"'
try 'isw, built for a number' 0 1 '1 <3>' "$isw_built" "$isw" 3
for number in 0 8 007 99999999999999999999999999999999999999999999999999; do
    try "isw, the number $number" 0 0 "1 <$number>" '' "$isw" "$number"
done
isw_program "$writes"

# ---- where it is called from
fresh
(cd "$folder" && run ./isw 3)
expect 'isw, in its folder' 0 1 "$text" "$isw_built"
(cd "$folder" && run sh isw 3)
expect 'isw, read by sh' 0 0 "$text" ''
ln -s ../repository/isw isw-link
ln -s "$room/elsewhere/isw-link" "$room/tools/ishai"
try 'isw, from another folder' 0 0 "$text" '' env CDPATH="$folder:$room" ../repository/isw 3
try 'isw, by a link' 0 0 "$text" '' ./isw-link 3
try 'isw, by a link to a link, on the path' 0 0 "$text" '' ishai 3
fresh "$room/a  folder/ with spaces"
try 'isw, a path with spaces' 0 1 "$text" "$isw_built" '../a  folder/ with spaces/isw' 3
[ ! -e target ] || complain 'isw' 'built in the wrong folder'
rm -r "$folder/scripts"
try 'isw, without what both scripts read' 2 0 '' '?*' '../a  folder/ with spaces/isw' 3
try 'without what both scripts read' 2 0 '' '?*' '../a  folder/ with spaces/report' text

# ---- builds
fresh
kit "$fails"
try 'isw, a build that fails' 2 1 '' '*the prover says: 100% wrong
*
isw: *could not be built; target/isw.log has it all' "$isw" 3
kit 'echo run >> "$room/runs"; { echo "linked target=x86_64-unknown-linux-gnu"; echo "rt: running out/isw; and so on"; } >&2'
try 'isw, rt links nothing' 2 1 '' '*crates/isw/out/isw is gone*' "$isw" 3
# as Ctrl-C does, to all that the call has started
kit 'echo run >> "$room/runs"; kill -TERM 0; sleep 20'
try 'isw, interrupted while it is built' 2 1 '' 'isw: building: *
isw: interrupted*' "$isw" 3
kit "$builds"
# usage: isw_changed NAME ERR COMMAND..
isw_changed() {
    name=$1
    says=$2
    shift 2
    "$@" || complain "$name" "it can not be changed so"
    try "$name: isw built again" 0 1 "$text" "$says" "$isw" 3
    try "$name: isw built once" 0 0 "$text" '' "$isw" 3
}
replace_isw() {
    printf '#!/bin/sh\necho something else\n' > "$folder/crates/isw/out/isw"
}
isw_changed 'builds that failed' "$isw_built" :
isw_changed 'a source changed' "$isw_built" add_to crates/basics/src/lib.rt
isw_changed 'the program replaced' "$isw_linked" replace_isw
isw_changed 'the program removed' "$isw_linked" rm "$folder/crates/isw/out/isw"
rm "$folder/target/isw.proved"
isw_program 'echo linked again'
try 'isw, built by rt alone' 0 1 "$text" "$isw_unchanged" "$isw" 3
isw_program "$writes"

# ---- both in one folder: each program is built once, and what befalls the one is nothing to the other
program "$reports"
try 'report beside isw' 0 1 "$report" "$limits_built" "$script" text
try 'isw beside report' 0 0 "$text" '' "$isw" 3
isw_changed 'isw replaced beside report' "$isw_linked" replace_isw
try 'report beside isw that was replaced' 0 0 "$report" "$note" "$script" text
changed 'report replaced beside isw' "$linked" replace_program
try 'isw beside report that was replaced' 0 0 "$text" '' "$isw" 3
changed 'a source of both changed' "$built" add_to crates/basics/src/lib.rt
isw_changed 'a source of both changed' "$isw_linked" :
try 'report, when isw is built too' 0 0 "$report" "$note" "$script" text

# usage: start_both FIRST SECOND
# Starts run 1, of the one script, and run 2, of the other, once that builds; lets the build go on once run 2 waits.
start_both() {
    rm -f "$room/go" "$room/started"
    fresh
    who=1
    run "$folder/$1" "$(argument_of "$1")" &
    wait_for [ -e "$room/started" ] || complain "$1 and $2" 'run 1 does not build'
    who=2
    run "$folder/$2" "$(argument_of "$2")" &
    wait_for grep -qx "$2: another run builds in this folder; waiting for it" "$room/err2" ||
        complain "$1 and $2" "run 2 does not say that it waits"
    [ ! -e "$folder/target/$2.log" ] || complain "$1 and $2" "run 2 builds"
    : > "$room/go"
    wait
}
argument_of() {
    case $1 in report) echo text ;; isw) echo 3 ;; esac
}
kit "$holds_on; $builds"
start_both report isw
who=1
expect 'report and isw: report' 0 2 "$report" "$built"
who=2
expect 'report and isw: isw' 0 0 "$text" "isw: another run *
$isw_linked"
start_both isw report
who=1
expect 'isw and report: isw' 0 2 "$text" "$isw_built"
who=2
expect 'isw and report: report' 0 0 "$report" "report: another run *
$limits_built"
who=
kit "$builds"

# ---- what the program does, and what it is lent
# usage: isw_does NAME STATUS OUT ERR BODY
isw_does() {
    isw_program "$5"
    fresh
    run "$isw" 3
    forget
    try "isw, $1" "$2" 0 "$3" "$4" "$isw" 3
}
isw_does 'the program fails' 2 'a text' 'isw: the program failed' 'echo "a text"; exit 1'
isw_does 'the program is killed' 2 '' '*isw: the program failed' 'kill -9 $$'
isw_does 'the program reads' 0 'nothing: ' '' 'echo "nothing: $(cat)"'
printf '1\n2\n' > orders
while read -r order; do
    call "$isw" "$order"
done < orders > "$room/out" 2> "$room/err"
expect 'isw, orders from standard input' 0 0 'nothing: 
nothing: ' ''
isw_does 'the program refuses' 2 '' 'isw: refused 23: X' 'printf "isw: refused 23: X" >&2'
call "$isw" 3 > "$room/out" 2>&-
expect 'isw, refused, standard error closed' 2 0 '' ''
call "$isw" 3 > "$room/out" 2> /dev/full
expect 'isw, refused, standard error full' 2 0 '' ''
call "$isw" 3 > "$room/out" 2>&6
expect 'isw, refused, standard error without a reader' 2 0 '' ''
isw_program "$writes"
fresh
call "$isw" 3 <&- > "$room/out" 2>&-
expect 'isw, built with the others closed' 0 1 "$text" ''
call "$isw" 3 <&- > "$room/out" 2>&-
expect 'isw, only standard output open' 0 0 "$text" ''
call "$isw" 3 >&- 2> "$room/err"
expect 'isw, standard output closed' 2 0 '' 'isw: standard output is closed'
call "$isw" 3 <&- >&- 2>&-
expect 'isw, all closed' 2 0 '' ''

# ---- the real program
cp "$room/real/isw" "$room/real/report" "$room/programs"
fresh_and_built
try 'isw, a number that is no order' 2 1 '' '*
isw: refused 23: *' "$isw" 0
try 'isw, a higher number' 2 0 '' 'isw: refused 23: ?*' "$isw" 10
try 'isw, a number with a zero before it' 2 0 '' 'isw: usage: ?*' "$isw" 01
run "$isw" 1
cmp -s isw-1.txt "$room/out" || complain 'isw, order 1' 'it is not gadgets/isw-1.txt'
expect 'isw, order 1' 0 0 'ORDER = 1*' ''
"$isw" 1 | run "$script"
expect 'the report on what isw prints' 0 0 "$holds" ''
call "$isw" 1 > /dev/full 2> "$room/err"
expect 'isw, standard output full' 2 0 '' 'isw: standard output?*'
call "$isw" 1 >&6 2> "$room/err"
expect 'isw, standard output without a reader' 2 0 '' 'isw: standard output?*'
call "$isw" 1 >&6 2>&6
expect 'isw, both without a reader' 2 0 '' ''
