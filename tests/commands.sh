#!/usr/bin/env bash
# The commands say one clear sentence where they cannot work; ./test passes exactly where all of it passes, in time; and the
# commands of README.md print what it shows.
# shellcheck source=tests/common.bash
. "$(dirname "$0")/common.bash"

# expect WHAT STATUS TEXT COMMAND..: the command ends with the status and writes the text alone to standard error
expect() {
    local what=$1 status=$2 text=$3 said got
    shift 3
    said=$(tools/limit 60 "it" "$@" 2>&1 >"$made/printed" </dev/null)
    got=$?
    if [ "$got" -ne "$status" ] || [ "$said" != "$text" ]; then
        fail "$what: status $got, said: $said"
    fi
}

# the usual tools without rt, then with a command in its place but without a C compiler
mkdir "$made/bare" "$made/rt"
for tool in bash cat dirname env mktemp readlink rm sed sleep tail tee timeout uname; do
    ln -s "$(command -v "$tool")" "$made/bare/$tool"
done
missing="the Rattle toolchain is not installed here: put its command rt on the PATH"
expect "test without rt" 1 "test: $missing" env PATH="$made/bare" ./test
expect "run without rt" 1 "run: $missing" env PATH="$made/bare" ./run
expect "library without rt" 1 "library: $missing" env PATH="$made/bare" tools/library
cat >"$made/rt/rt" <<'EOT'
#!/usr/bin/env bash
exec bash "$STAND_IN"
EOT
chmod +x "$made/rt/rt"
path=$made/rt:$made/bare
export STAND_IN=$made/ci
expect "library without a C compiler" 1 "library: there is no C compiler here: install one, with the command cc" \
    env PATH="$path" tools/library

# where its check fails, run does not start a program that was built before
old=$made/old/crates/figures_program/out
mkdir -p "$old" "$made/old/tools"
cp run "$made/old"
cp tools/start "$made/old/tools"
printf '#!/usr/bin/env bash\necho old\n' >"$old/figures_program"
chmod +x "$old/figures_program"
echo 'echo not proved >&2; exit 1' >"$STAND_IN"
expect "run where the check fails" 1 "not proved" env PATH="$path" "$made/old/run"
[ ! -s "$made/printed" ] || fail "run where the check fails prints $(cat "$made/printed")"

# on a processor for which the toolchain has no part, start says so
mkdir "$made/other"
printf '#!/usr/bin/env bash\necho other\n' >"$made/other/uname"
chmod +x "$made/other/uname"
none="start: the Rattle toolchain that is installed here has no part for the processor other"
other=(env -u RATTLE_HOME PATH="$made/other:$path")
expect "start on another processor" 1 "$none" "${other[@]}" tools/start "$old/figures_program"
expect "run on another processor" 1 "$none" "${other[@]}" "$made/old/run"

# a limit ends what does not end by itself, and the processes that it started
expect "a limit that is kept" 3 "" tools/limit 60 "the step" bash -c 'exit 3'
expect "a limit that is not kept" 124 "the step did not end within 1 seconds" \
    tools/limit 1 "the step" bash -c 'sleep 60 | cat; true'

# tried WHAT STATUS TEXT LAST RT SCRIPT: in a copy, ./test ends so where rt ci and its one script do this
tree=$made/tree
mkdir -p "$tree/tests" "$tree/tools"
cp tools/limit "$tree/tools"
sed 's/limit [0-9]*/limit 2/' test >"$tree/test"
tried() {
    local what="test with $1" status=$2 text=$3 last=$4
    echo "$5" >"$STAND_IN"
    echo "$6" >"$tree/tests/one.sh"
    expect "$what" "$status" "$text" env PATH="$path" bash "$tree/test"
    [ "$(tail -n 1 "$made/printed")" = "$last" ] || fail "$what: the last line is $(tail -n 1 "$made/printed")"
}
passed='3 passed, 0 failed'
ok='rt: ok; handles allowed: none; must-fail edits: 120 refused'
tried "all in order" 0 "" "$passed" "echo talk; echo $passed" "echo the script"
tried "an rt ci that fails" 1 "test: rt ci did not pass: $passed" talk "echo talk; echo $passed; exit 1" "echo the script"
tried "a failed proof" 1 "test: rt ci did not pass: 2 passed, 1 failed" talk "echo talk; echo 2 passed, 1 failed" ""
tried "edits that are all refused" 0 "" "$passed" "echo '$ok'; echo $passed" "echo the script"
bad="$ok, 12 bad"
tried "bad edits" 1 "test: must-fail edits that rt ci could not try: 12" "$bad" "echo '$bad'; echo $passed" "echo the script"
bad="$ok, 1 of them only by a limit, 1 bad; every proof and must-fail edit was done in this run"
tried "a bad edit" 1 "test: must-fail edits that rt ci could not try: 1" "$bad" "echo '$bad'; echo $passed" "echo the script"
tried "an rt ci that says nothing" 1 "test: rt ci did not pass: " "" "" ""
tried "an rt ci without an end" 1 "test: rt ci did not pass: rt ci did not end within 2 seconds" talk "echo talk; sleep 60" ""
tried "a script that fails" 1 "test: tests/one.sh failed" "the script" "echo $passed" "echo the script; exit 1"
late=$'tests/one.sh did not end within 2 seconds\ntest: tests/one.sh failed'
tried "a script without an end" 1 "$late" "the script" "echo $passed" "echo the script; sleep 60"

# each command of README.md after a $ prints the lines below it
command='' count=0
while IFS= read -r -u 3 line; do
    if [[ $line == '    $ '* ]]; then
        command=${line#*\$ }
        : >"$made/wanted"
    elif [ -n "$command" ] && [[ $line == '    '* ]]; then
        echo "${line:4}" >>"$made/wanted"
    elif [ -n "$command" ]; then
        prints 1800 "$command" "$made/wanted" bash -c "$command"
        command='' count=$((count + 1))
    fi
done 3<README.md
[ "$count" -ge 3 ] || fail "README.md shows $count commands"
echo "the commands say what is missing, ./test tells what fails, and README.md's $count commands print what it shows"
