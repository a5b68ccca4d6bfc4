# What the scripts ./report, ./isw and ./plan have in common: each prints what a program of this folder prints, and
# builds and proves the program first where that is to be done. The script that reads this file has set
#     name       the program's, which is its crate's too
#     usage      the line for one who calls it in another way
#     failing    how a line begins by which the program says that it has not printed what was asked for
#     folder     where the script stands, which may be called by a link
# looks at its arguments, and calls `open_text`, where its program reads a text, `have_program` and `run_program`.

say() {
    printf '%s: %s\n' "$name" "$1" >&2 || :
}
give_up() {
    say "$1"
    exit 2
}
show_usage() {
    printf '%s\n' "$usage"
    exit 0
}

# ---- what is lent: a closed descriptor would be taken for the next file that is opened
(true 3>&2) || exec 2> /dev/null
(true 3>&1) 2> /dev/null || give_up "standard output is closed"

# usage: open_text NAME
# Has the text of a file come from standard input, which `-` leaves as it is.
open_text() {
    case $1 in
    -)
        (true 3<&0) 2> /dev/null || give_up "standard input is closed"
        [ ! -t 0 ] || say "reading the text from the terminal; Ctrl-D ends it"
        ;;
    -*) give_up "$usage; a name that begins with a dash is given as ./-name" ;;
    *)
        [ ! -d "$1" ] || give_up "'$1' is a folder, and not a file"
        [ -r "$1" ] || give_up "there is no file '$1' that can be read"
        exec < "$1"
        ;;
    esac
}

# ---- the program, proved and built where it is not
program=crates/$name/out/$name
# dated at the start of the build that proved the program, so that what was saved while it ran is newer
proved=target/$name.proved

# usage: newer_than FILE
# Names what is newer of all that a build goes by: the program, and the sources, of which what `rt` keeps is none.
newer_than() {
    find crates crates.txt "$program" -path 'crates/*/out' ! -path 'crates/*/*/out' -prune -o -newer "$1" -print
}
is_current() {
    [ -x "$program" ] && [ -e "$proved" ] && [ -z "$(newer_than "$proved" | head -n 1)" ]
}

# usage: named_by NAME
# The crates of this project that the crate's line names. These rest on others, which it need not name.
named_by() {
    for crate in $(sed -n "s/^$1: //p" crates.txt); do
        [ ! -d "crates/$crate" ] || printf '%s\n' "$crate"
    done
}

# usage: pass NAME
# Counts the crate and all that it rests on in `done`, but none that was counted.
pass() {
    left=$1
    while [ -n "$left" ]; do
        named=
        for crate in $left; do
            case " $passed " in
            *" $crate "*) ;;
            *)
                passed="$passed $crate"
                done=$((done + 1))
                named="$named $(named_by "$crate")"
                ;;
            esac
        done
        left=$named
    done
}

# Names each crate when it is proved: a build of minutes should not look like one that hangs. `rt` goes from the lowest
# crate up, and says nothing of one that was proved before: those below one that it names were.
show_progress() {
    passed=
    done=0
    pass "$name"
    all=$done
    passed=
    done=0
    proving=$name
    while IFS= read -r line || [ -n "$line" ]; do
        printf '%s\n' "$line"
        case $line in
        'crate '*': modules '*)
            proving=${line#crate }
            proving=${proving%%:*}
            ;;
        'logic=proved '*)
            pass "$proving"
            say "$done of $all: $proving"
            ;;
        esac
    done
}

# `rt run` goes by the sources, and by what it linked last: what something else has put in the program's place it does
# not run, but links the program anew. What it has linked it runs, whatever that comes to: here on nothing.
link_program() {
    (cd "crates/$name" && rt run < /dev/null 2>&1 > /dev/null) || :
}

# `rt` says that it runs the program where it has linked it, or finds nothing changed since, and in no other case.
is_linked() {
    sed -n "/^linked /{n;p;};/^rt: nothing has changed since the last proved build/{n;p;}" "$1" |
        grep -q "^rt: running out/$name; "
}

# The files by which it goes are the program's own, so that where nothing locks, another program's build leaves them.
build() {
    say "building: every function is proved first, which takes some minutes, and much longer where nothing is proved yet"
    start=target/$name.start
    log=target/$name.log
    rm -f "$proved"
    # `rt` would take it for its own, and fail to run it
    [ -x "$program" ] || rm -f "$program"
    # made by `rt`, they would date the crates' folders, and these tell whether a source is gone
    for crate in crates/*/; do
        mkdir -p "${crate}out"
    done
    : > "$start"
    link_program | show_progress > "$log"
    if ! is_linked "$log"; then
        tail -n 20 "$log" >&2
        give_up "the program could not be built; $log has it all"
    fi
    [ -x "$program" ] || give_up "$program is gone, though it was just linked: try again"
    touch -r "$start" "$program"
    mv "$start" "$proved"
}

# One build at a time in this folder, whichever the program: they rest on the same crates.
build_alone() {
    if command -v flock > /dev/null && ! flock -n 9; then
        say "another run builds in this folder; waiting for it"
        flock 9
    fi
    # what `rt` starts holds the lock too, so that the next run waits for what an interrupted one has left behind
    is_current || build
}

# Goes to the script's folder, and leaves there a program that is proved.
have_program() {
    CDPATH= cd -- "$folder"
    ! is_current || return 0
    command -v rt > /dev/null ||
        give_up "the program is not built, or older than a source, and the Rattle kit is not here to build it: 'rt' has to be on the path"
    mkdir -p target && [ -w target ] || give_up "the program is to be built first, and nothing can be written to the folder target"
    trap 'give_up "interrupted; the next run goes on with what is proved"' HUP INT TERM
    (build_alone) 9> target/build.lock
    trap - HUP INT TERM
}

# ---- what the program prints goes straight to standard output, and so before its notes. It has no exit status of its
# own: a line that begins as the script has told says that something failed.
pass_notes() {
    status=0
    while IFS= read -r line || [ -n "$line" ]; do
        printf '%s\n' "$line" >&2 || :
        case $line in
        "$failing"*) status=2 ;;
        esac
    done
    exit "$status"
}

# usage: run_program WORD..
# Who writes to a reader that is gone is told so, and not ended. Standard output is 3; a failure, which the pipe would
# lose, goes by way of 4.
run_program() {
    trap '' PIPE
    exec 3>&1
    failure=$({ { "$program" "$@" >&3 3>&- 4>&- || echo "the program failed" >&4; } 2>&1 | pass_notes; } 4>&1)
    [ -z "$failure" ] || give_up "$failure"
}
