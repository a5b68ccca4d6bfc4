# The script `plan`: its arguments, its file, what its program does and is lent, and all three scripts in one folder. A
# part of tests/script/run.

# ---- the kit
kit "$builds"
planned='the plan at <> for a text'
plan_built='plan: building: *
plan: 1 of 3: basics
plan: 2 of 3: limits
plan: 3 of 3: plan'
plan_linked='plan: building: *
plan: 3 of 3: plan'
plan_unchanged='plan: building: *'
no_kit="plan: *'rt' has to be on the path"
fresh
path=$without_kit
try 'plan, no kit, not built' 2 0 '' "$no_kit" "$plan" text
path=$with_kit
try 'plan, the first run' 0 1 "$planned" "$plan_built" "$plan" text
path=$without_kit
try 'plan, no kit, built' 0 0 "$planned" '' "$plan" text
echo more >> "$folder/crates/limits/src/lib.rt"
try 'plan, no kit, a source changed' 2 0 '' "$no_kit" "$plan" text

# ---- arguments: what can not be a rate is told without the program, and what a number is worth by the program
usage='usage: ./plan FILE *'
fresh
try 'plan -h' 0 0 "$usage" '' "$plan" -h
try 'plan --help' 0 0 "$usage" '' "$plan" --help
call "$plan" --help > /dev/full 2> "$room/err"
expect 'plan --help, standard output full' 2 0 '' '?*'
call "$plan" --help >&- 2> "$room/err"
expect 'plan --help, standard output closed' 2 0 '' 'plan: standard output is closed'
try 'plan, three arguments' 2 0 '' "plan: $usage" "$plan" text 5 5
try 'plan, an argument after --help' 2 0 '' "plan: $usage" "$plan" --help 5
try 'plan, no such option' 2 0 '' "plan: $usage" "$plan" --rate
for word in '' ten 5x x5 ' 5' '5
' -5 +5 1.5 5,000 - -- -h '*' '100%s \n'; do
    try "plan, the rate '$word'" 2 0 '' "plan: $usage" "$plan" text "$word"
done
path=$with_kit
plan_program 'echo "$# <$*> $(cat)"'
try 'plan, built for a rate' 0 1 '1 <5> a text' "$plan_built" "$plan" text 5
try 'plan, no rate' 0 0 '0 <> a text' '' "$plan" text
for number in 0 1 007 99999999999999999999999999999999999999999999999999; do
    try "plan, the rate $number" 0 0 "1 <$number> a text" '' "$plan" text "$number"
done
plan_program "$plans"

# ---- the file
fresh
run "$plan" text
forget
try 'plan, a name with spaces' 0 0 'the plan at <5> for spaces' '' "$plan" ' a  text ' 5
try 'plan, a name with a dash' 2 0 '' 'plan: usage: *./-name' "$plan" -text 5
try 'plan, a name with a dash, given as the hint says' 0 0 'the plan at <5> for a dash' '' "$plan" ./-text 5
try 'plan, no such file' 2 0 '' "plan: *'100%s \\\\n'*" "$plan" '100%s \n'
try 'plan, a rate in the place of the file' 2 0 '' "plan: *'5'*" "$plan" 5
try 'plan, an empty name' 2 0 '' "plan: *''*" "$plan" ''
try 'plan, a folder' 2 0 '' "plan: *'../repository'*" "$plan" ../repository
try 'plan, an empty file' 0 0 'the plan at <> for ' '' "$plan" empty
if $nobody sh -c '[ -r text ] && [ ! -r secret ]' 2> /dev/null; then
    try 'plan, a file that may not be read' 2 0 '' "plan: *'secret'*" $nobody "$plan" secret
fi
timeout 20 sh -c 'echo "a fifo" > fifo' &
try 'plan, a fifo' 0 0 'the plan at <> for a fifo' '' "$plan" fifo
echo 'a pipe' | run "$plan"
expect 'plan, a pipe' 0 0 'the plan at <> for a pipe' ''
echo 'a pipe' | run "$plan" -
expect 'plan, a pipe and a dash' 0 0 'the plan at <> for a pipe' ''
echo 'a pipe' | run "$plan" - 5
expect 'plan, a pipe, a dash and a rate' 0 0 'the plan at <5> for a pipe' ''
echo 'a pipe' | run "$plan" text 5
expect 'plan, a pipe and a file' 0 0 'the plan at <5> for a text' ''

# ---- where it is called from
echo 'a text beside the script' > "$folder/text"
(cd "$folder" && run ./plan text)
expect 'plan, in its folder' 0 0 'the plan at <> for a text beside the script' ''
(cd "$folder" && run sh plan text 5)
expect 'plan, read by sh' 0 0 'the plan at <5> for a text beside the script' ''
ln -s ../repository/plan plan-link
ln -s "$room/elsewhere/plan-link" "$room/tools/booking"
try 'plan, from another folder' 0 0 "$planned" '' env CDPATH="$folder:$room" ../repository/plan text
try 'plan, by a link' 0 0 "$planned" '' ./plan-link text
try 'plan, by a link to a link, on the path' 0 0 "$planned" '' booking text
fresh "$room/a  folder/ with spaces"
try 'plan, a path with spaces' 0 1 "$planned" "$plan_built" '../a  folder/ with spaces/plan' text
[ ! -e target ] || complain 'plan' 'built in the wrong folder'
rm -r "$folder/scripts"
try 'plan, without what all scripts read' 2 0 '' '?*' '../a  folder/ with spaces/plan' text

# ---- builds
fresh
kit "$fails"
try 'plan, a build that fails' 2 1 '' '*the prover says: 100% wrong
*
plan: *could not be built; target/plan.log has it all' "$plan" text
kit 'echo run >> "$room/runs"; { echo "linked target=x86_64-unknown-linux-gnu"; echo "rt: running out/plan; and so on"; } >&2'
try 'plan, rt links nothing' 2 1 '' '*crates/plan/out/plan is gone*' "$plan" text
# as Ctrl-C does, to all that the call has started
kit 'echo run >> "$room/runs"; kill -TERM 0; sleep 20'
try 'plan, interrupted while it is built' 2 1 '' 'plan: building: *
plan: interrupted*' "$plan" text
kit "$builds"
echo 'a pipe' | run "$plan" - 5
expect 'plan, rt does not take the text' 0 1 'the plan at <5> for a pipe' "$plan_built"
# usage: plan_changed NAME ERR COMMAND..
plan_changed() {
    name=$1
    says=$2
    shift 2
    "$@" || complain "$name" "it can not be changed so"
    try "$name: plan built again" 0 1 "$planned" "$says" "$plan" text
    try "$name: plan built once" 0 0 "$planned" '' "$plan" text
}
replace_plan() {
    printf '#!/bin/sh\necho something else\n' > "$folder/crates/plan/out/plan"
}
plan_changed 'a source changed' "$plan_built" add_to crates/basics/src/lib.rt
plan_changed 'the program replaced' "$plan_linked" replace_plan
plan_changed 'the program removed' "$plan_linked" rm "$folder/crates/plan/out/plan"
rm "$folder/target/plan.proved"
plan_program 'echo linked again'
try 'plan, built by rt alone' 0 1 "$planned" "$plan_unchanged" "$plan" text
plan_program "$plans"

# ---- all three in one folder: each program is built once, and what befalls the one is nothing to the others
program "$reports"
isw_program "$writes"
try 'report beside plan' 0 1 "$report" "$linked" "$script" text
try 'isw beside plan' 0 1 'the text of order 3' "$isw_linked" "$isw" 3
try 'plan beside both' 0 0 "$planned" '' "$plan" text
plan_changed 'plan replaced beside both' "$plan_linked" replace_plan
try 'report beside plan that was replaced' 0 0 "$report" "$note" "$script" text
try 'isw beside plan that was replaced' 0 0 'the text of order 3' '' "$isw" 3
changed 'report replaced beside plan' "$linked" replace_program
try 'plan beside report that was replaced' 0 0 "$planned" '' "$plan" text
argument_of() {
    echo text
}
kit "$holds_on; $builds"
start_both report plan
who=1
expect 'report and plan: report' 0 2 "$report" "$built"
who=2
expect 'report and plan: plan' 0 0 "$planned" "plan: another run *
$plan_linked"
who=
kit "$builds"

# ---- what the program does
# usage: plan_does NAME STATUS OUT ERR BODY
plan_does() {
    plan_program "$5"
    fresh
    run "$plan" text
    forget
    try "plan, $1" "$2" 0 "$3" "$4" "$plan" text
}
plan_does 'the program fails' 2 'a plan' 'plan: the program failed' 'echo "a plan"; exit 1'
plan_does 'the program is killed' 2 '' '*plan: the program failed' 'kill -9 $$'
plan_does 'the program can not read' 2 '' 'plan: standard input: X' 'echo "plan: standard input: X" >&2'
plan_does 'the program can not print' 2 '' 'plan: standard output: X' 'printf "plan: standard output: X" >&2'
plan_does 'the program refuses' 2 '' 'plan: refused 7 at 27
    s00 | r0' 'printf "plan: refused 7 at 27\n    s00 | r0\n" >&2'
call "$plan" text > "$room/out" 2>&-
expect 'plan, refused, standard error closed' 2 0 '' ''
call "$plan" text > "$room/out" 2> /dev/full
expect 'plan, refused, standard error full' 2 0 '' ''
call "$plan" text > "$room/out" 2>&6
expect 'plan, refused, standard error without a reader' 2 0 '' ''

# ---- what is closed
plan_program "$plans"
fresh
call "$plan" text 5 <&- > "$room/out" 2>&-
expect 'plan, built with the others closed' 0 1 'the plan at <5> for a text' ''
call "$plan" text 5 <&- > "$room/out" 2>&-
expect 'plan, only standard output open' 0 0 'the plan at <5> for a text' ''
try 'plan, standard input closed' 2 0 '' 'plan: standard input is closed' "$plan" <&-
try 'plan, standard input closed, a dash and a rate' 2 0 '' 'plan: standard input is closed' "$plan" - 5 <&-
try 'plan, standard input closed, and a file' 0 0 "$planned" '' "$plan" text <&-
call "$plan" text >&- 2> "$room/err"
expect 'plan, standard output closed' 2 0 '' 'plan: standard output is closed'
call "$plan" text <&- >&- 2>&-
expect 'plan, all closed' 2 0 '' ''

# ---- the real program
cp "$room/real/plan" "$room/real/isw" "$room/real/report" "$room/programs"
fresh_and_built
run "$isw" 1
run "$plan" isw-1.txt
forget
figures='order                                  1
shares                                 2
masks                                  1
wires                                  9
bytes of the table                   216
sets of size 1                         9
sets in all                            9
'
at_once="$figures
NI and SNI: up to 18 sets, less than a second at 200000000 sets a second"
try 'a plan' 0 0 "$at_once" '' "$plan" isw-1.txt
try 'a plan of a text on standard input' 0 0 "$at_once" '' "$plan" < isw-1.txt
try 'a plan at a rate' 0 0 "$figures
NI and SNI: up to 18 sets, 3 seconds at 5 sets a second" '' "$plan" isw-1.txt 5
try 'a plan at the highest rate' 0 0 '*, less than a second at 999999999999999999 sets a second' '' \
    "$plan" isw-1.txt 999999999999999999
try 'a plan of what takes hours' 0 0 '*
NI and SNI: up to 2248742599782 sets, 3 hours at 200000000 sets a second' '' "$plan" figure-8.txt
for number in 0 05 1000000000000000000; do
    try "a plan at the rate $number" 2 0 '' 'plan: usage: plan [[]RATE[]] ?*' "$plan" isw-1.txt "$number"
done
try 'a plan of a refused text' 2 0 '' 'plan: refused 7 at 27
plan: line 3, byte 5: *
    s00 | r0
        ^' "$plan" bar.txt
# but for the name the reasons are the report's
for file in bar.txt bytes.txt empty long.txt; do
    run "$script" "$file"
    sed 's/^report: /plan: /' "$room/err" > "$room/reasons"
    run "$plan" "$file"
    sed 1d "$room/err" | cmp -s - "$room/reasons" || complain "a plan of $file" 'report gives another reason'
done
forget
try 'a plan of no text' 2 0 '' 'plan: refused 2 at 0
plan: line 1, byte 1: ?*' "$plan" empty
try 'a plan of a text too long' 2 0 '' 'plan: refused 1 at 4096
plan: line 1, byte 4097: ?*' "$plan" < /dev/zero
call "$plan" bar.txt > "$room/out" 2>&-
expect 'a plan of a refused text, standard error closed' 2 0 '' ''
try 'a plan of a folder on standard input' 2 0 '' 'plan: standard input: ?*' "$plan" < /
call "$plan" isw-1.txt > /dev/full 2> "$room/err"
expect 'a plan, standard output full' 2 0 '' 'plan: standard output: ?*'
call "$plan" isw-1.txt >&6 2> "$room/err"
expect 'a plan, standard output without a reader' 2 0 '' 'plan: standard output: ?*'
call "$plan" isw-1.txt >&6 2>&6
expect 'a plan, both without a reader' 2 0 '' ''
"$isw" 1 | run "$plan" - 5
expect 'a plan of what isw prints' 0 0 '*, 3 seconds at 5 sets a second' ''
