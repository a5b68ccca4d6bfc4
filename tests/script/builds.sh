# Builds: that fail, with something missing, after changes, at the same time. A part of tests/script/run.

# ---- builds that fail
log='*the prover says: 100% wrong
*
rt: the library limits did not build*
report: *could not be built*'
kit "$fails"
try 'a build that fails' 2 1 '' "$log" "$script" text
try 'a build that fails again' 2 1 '' "$log" "$script" text
call "$script" text > "$room/out" 2> /dev/full
expect 'a build that fails, standard error full' 2 1 '' ''
call "$script" text > "$room/out" 2>&-
expect 'a build that fails, standard error closed' 2 1 '' ''
kit "$builds"
try 'a build that is mended' 0 1 "$report" "$built" "$script" text
echo more >> "$folder/crates/limits/src/lib.rt"
kit "$fails"
try 'a change that is not proved' 2 1 '' "$log" "$script" text

# usage: no_build NAME ERR BODY
no_build() {
    fresh
    kit 'echo run >> "$room/runs"; '"$3"
    try "$1" 2 1 '' "$2" "$script" text
}
proved='echo "crate report: modules loaded=40 checked=12"; echo "logic=proved functions=12"'
copied='mkdir -p out; cp "$room/programs/report" out'
linked_it='echo "linked target=x86_64-unknown-linux-gnu"'
runs_it='echo "rt: running out/report; to give it other input, run that file yourself"'
no_build 'rt is killed' '*could not be built*' "{ $proved; } >&2; kill -9 \$\$"
no_build 'rt says nothing' '*could not be built*' ':'
no_build 'rt says something before it runs' '*could not be built*' "{ $proved; $copied; $linked_it; echo more; $runs_it; } >&2"
no_build 'rt links nothing' '*out/report is gone*' "{ $proved; $linked_it; $runs_it; } >&2"
no_build 'rt links, and fails' '*could not be built*' "{ $proved; $copied; $linked_it; echo 'rt: the disk is full'; } >&2; exit 1"
try 'rt linked, and failed' 2 1 '' '*could not be built*' "$script" text
no_build 'rt runs what it did not link' '*could not be built*' "{ $proved; $copied; $runs_it; } >&2"
no_build 'a program says that it is linked' '*could not be built*' "{ $proved; $copied; } >&2; $linked_it; $runs_it"
no_build 'rt runs another program' '*could not be built*' \
    "{ $proved; $copied; $linked_it; echo 'rt: running out/isw; to give it other input, run that file yourself'; } >&2"

# ---- builds with something missing, closed or full
kit "$builds"
fresh
echo 'a pipe' | run "$script"
expect 'rt does not take the text' 0 1 'the report on a pipe' "$built"
fresh
call "$script" text <&- > "$room/out" 2>&-
expect 'built with the others closed' 0 1 "$report" ''
fresh
call "$script" text > "$room/out" 2> /dev/full
expect 'built with standard error full' 0 1 "$report" ''
fresh
: > "$folder/target"
try 'no folder for what is built' 2 0 '' '*nothing can be written to the folder target' "$script" text
fresh
mkdir "$folder/target"
ln -s /dev/full "$folder/target/report.log"
try 'no room for the log' 2 1 '' '?*' "$script" text
fresh
mkdir -p "$folder/target/build.lock"
try 'no file for the lock' 2 0 '' '?*' "$script" text
fresh
stand_in kit/flock 'echo "flock: no locks here" >&2; exit 71'
try 'a lock that fails' 2 0 '' '*no locks here' "$script" text
rm "$room/kit/flock"
mv "$room/tools/flock" "$room/flock"
try 'no tool for the lock' 0 1 "$report" "$built" "$script" text
mv "$room/flock" "$room/tools/flock"

# ---- what has changed since it was built, or while it was
# usage: changed NAME ERR COMMAND..
# ERR is what the build then says.
changed() {
    name=$1
    says=$2
    shift 2
    "$@" || complain "$name" "it can not be changed so"
    try "$name: built again" 0 1 "$report" "$says" "$script" text
    try "$name: built once" 0 0 "$report" "$note" "$script" text
}
add_to() {
    echo more >> "$folder/$1"
}
replace_program() {
    printf '#!/bin/sh\necho something else\n' > "$folder/crates/report/out/report"
}
remove_all() {
    rm -r "$folder/target" "$folder"/crates/*/out
}
limits_built="$building
report: 2 of 3: limits
report: 3 of 3: report
$note"
fresh_and_built
changed 'a source changed' "$built" add_to crates/basics/src/lib.rt
changed 'a source touched' "$unchanged" touch "$folder/crates/report/src/lib.rt"
changed 'a source added' "$linked" add_to crates/report/src/more.rt
changed 'a source removed' "$limits_built" rm "$folder/crates/limits/src/lib.rt"
changed 'a folder of sources removed' "$built" rm -r "$folder/crates/basics/specs"
changed 'the list of crates changed' "$built" add_to crates.txt
changed 'the program touched' "$unchanged" touch "$folder/crates/report/out/report"
changed 'the program replaced' "$linked" replace_program
changed 'the program removed' "$linked" rm "$folder/crates/report/out/report"
changed 'the program not executable' "$linked" chmod -x "$folder/crates/report/out/report"
changed 'its own files removed' "$unchanged" rm -r "$folder/target"
changed 'all removed' "$built" remove_all
# what `rt` keeps is no source
add_to crates/basics/out/kept
try 'kept work changed' 0 0 "$report" "$note" "$script" text

# what `rt` has built by itself is not linked again
rm "$folder/target/report.proved"
program 'echo linked again'
try 'built by rt alone' 0 1 "$report" "$unchanged" "$script" text
program "$reports"

fresh
kit "$builds; sleep 0.02; echo more >> ../basics/src/lib.rt"
try 'a source changed while it is built' 0 1 "$report" "$built" "$script" text
kit "$builds"
changed 'a source changed while it was built' "$built" :

# ---- runs at the same time
# usage: start_together NUMBER..
# Starts run 1, the others once it builds, and lets the build go on once they wait for it.
start_together() {
    rm -f "$room/go" "$room/started"
    fresh
    who=1
    run "$script" text &
    wait_for [ -e "$room/started" ] || complain 'at once' 'run 1 does not build'
    for who in "$@"; do
        run "$script" text &
    done
    for who in "$@"; do
        wait_for grep -q 'another run builds' "$room/err$who" ||
            complain 'at once' "run $who does not say that it waits"
    done
    : > "$room/go"
    wait
}
waits='report: another run builds in this folder; waiting for it'

kit "$holds_on; $builds"
for others in 2 '2 3'; do
    start_together $others
    who=1
    expect "at once with $others: 1" 0 1 "$report" "$built"
    for who in $others; do
        expect "at once with $others: $who" 0 0 "$report" "$waits
$note"
    done
done
# the first build fails, and the second does not
kit "$holds_on; if [ ! -s \"\$room/runs\" ]; then $fails
fi; $builds"
start_together 2
who=1
expect 'at once, and the build fails' 2 2 '' "$log"
who=2
expect 'at once, and the build before failed' 0 0 "$report" "$waits
$built"
who=
kit "$builds"
