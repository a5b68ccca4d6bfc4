# From where and with what the script is called. A part of tests/script/run.

# ---- the kit
no_kit="report: *'rt' has to be on the path"
fresh
path=$without_kit
try 'no kit, not built' 2 0 '' "$no_kit" "$script" text
path=$with_kit
try 'the first run' 0 1 "$report" "$built" "$script" text
try 'the second run' 0 0 "$report" "$note" "$script" text
path=$without_kit
try 'no kit, built' 0 0 "$report" "$note" "$script" text
echo more >> "$folder/crates/basics/src/lib.rt"
try 'no kit, a source changed' 2 0 '' "$no_kit" "$script" text
path=$with_kit

# ---- where it is called from: another text in the script's own folder shows whose file is read
fresh_and_built
echo 'a text beside the script' > "$folder/text"
(cd "$folder" && run ./report text)
expect 'in its folder' 0 0 'the report on a text beside the script' "$note"
(cd "$folder" && run sh report text)
expect 'read by sh' 0 0 'the report on a text beside the script' "$note"
ln -s ../repository/report link
ln -s "$room/elsewhere/link" "$room/tools/calduvren"
try 'from another folder' 0 0 "$report" "$note" ../repository/report text
try 'with CDPATH set' 0 0 "$report" "$note" env CDPATH="$folder:$room" ../repository/report text
try 'by a link' 0 0 "$report" "$note" ./link text
try 'by a link to a link, on the path' 0 0 "$report" "$note" calduvren text
fresh
try 'built by a link' 0 1 "$report" "$built" ./link text
[ ! -e target ] || complain 'built by a link' 'in the wrong folder'
fresh "$room/a  folder/ with spaces"
try 'a path with spaces' 0 1 "$report" "$built" '../a  folder/ with spaces/report' text
try 'a path with spaces, built' 0 0 "$report" "$note" '../a  folder/ with spaces/report' text

# ---- the file
fresh_and_built
echo 'spaces' > ' a  text '
echo 'a dash' > -text
: > empty
mkfifo fifo
try 'a name with spaces' 0 0 'the report on spaces' "$note" "$script" ' a  text '
try 'a name with a dash' 2 0 '' 'report: usage: *./-name' "$script" -text
try 'a name with a dash, given as the hint says' 0 0 'the report on a dash' "$note" "$script" ./-text
try 'no such file' 2 0 '' "report: *'100%s \\\\n'*" "$script" '100%s \n'
try 'an empty name' 2 0 '' "report: *''*" "$script" ''
try 'a folder' 2 0 '' "report: *'../repository'*" "$script" ../repository
try 'an empty file' 0 0 'the report on ' "$note" "$script" empty
timeout 20 sh -c 'echo "a fifo" > fifo' &
try 'a fifo' 0 0 'the report on a fifo' "$note" "$script" fifo
echo 'a pipe' | run "$script"
expect 'a pipe' 0 0 'the report on a pipe' "$note"
echo 'a pipe' | run "$script" -
expect 'a pipe and a dash' 0 0 'the report on a pipe' "$note"
echo 'a pipe' | run "$script" text
expect 'a pipe and a file' 0 0 "$report" "$note"

# root can read every file: then nobody tries it
echo secret > secret
chmod 000 secret
nobody=
if [ -r secret ]; then
    chmod 711 "$room"
    nobody='setpriv --reuid=65534 --regid=65534 --clear-groups'
    ! found=$(command -v setpriv) || ln -s "$found" "$room/tools/setpriv"
fi
if $nobody sh -c '[ -r text ] && [ ! -r secret ]' 2> /dev/null; then
    try 'a file that may not be read' 2 0 '' "report: *'secret'*" $nobody "$script" secret
fi

# ---- usage
usage='usage: ./report FILE *'
fresh
path=$without_kit
try '-h' 0 0 "$usage" '' "$script" -h
try '--help' 0 0 "$usage" '' "$script" --help
call "$script" --help > /dev/full 2> "$room/err"
expect '--help, standard output full' 2 0 '' '?*'
try 'no such option' 2 0 '' "report: $usage" "$script" --version
try 'two files' 2 0 '' "report: $usage" "$script" text text
try 'two arguments' 2 0 '' "report: $usage" "$script" -- text
path=$with_kit
