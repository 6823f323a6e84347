#!/usr/bin/env bash
# The figures program on damaged inputs, and on one input split in many ways: what each prints, whole.
set -u
# the last part of a pipe runs in this shell, so that it can note a failure
shopt -s lastpipe
cd "$(dirname "$0")/.." || exit 1
bin=crates/figures_program/out/figures_program
if [ ! -x "$bin" ]; then
    echo "damaged: the figures program is not built: run ./run </dev/null first" >&2
    exit 1
fi

if ! command -v python3 >/dev/null 2>&1; then
    echo "damaged: the command python3 is missing here: install Python 3.8 or newer" >&2
    exit 1
fi

said=$(mktemp) || exit 1
trap 'rm -f "$said"' EXIT
seconds=60
program() { timeout "$seconds" tools/start "$bin"; }

failed=0

# same WHAT WANTED GOT STATUS
same() {
    if [ "$4" -eq 124 ]; then
        echo "damaged: $1: the program did not end within $seconds seconds" >&2
        exit 1
    fi
    if [ "$2" != "$3" ] || [ "$4" -ne 0 ]; then
        printf '%s: status %s\n--- wanted\n%s\n--- got\n%s\n' "$1" "$4" "$2" "$3" >&2
        failed=1
    fi
}

header='value from to visits'

# prints WHAT LINES: standard input leads to the header and these lines, each with its newline
prints() {
    local wanted=$header$'\n' got status
    [ -z "$2" ] || wanted+=$2$'\n'
    got=$(program && printf x)
    status=$?
    same "$1" "${wanted}x" "$got" "$status"
}

# times COUNT LINE: the line, COUNT times
times() {
    local i
    for ((i = 0; i < $1; i++)); do printf '%s\n' "$2"; done
}

stops=010005
row=0200000001000000640000001400
pivot=03000200000096
# without a pivot every ask is answered by none and 0 visits
ask=0400000000640000012c

prints 'no input' '' </dev/null
prints 'an input that cannot be read' '' <.
printf '%s\n' $stops | prints 'the number of stops alone' ''
printf '%s\n' $stops $ask | prints 'an ask over no rows' 'none 0'
printf '%s\n' $stops $row $ask $ask | prints 'two asks' $'none 0\nnone 0'

printf '%s\n' $ask $stops | prints 'an ask before the stops' 'frame 1'
printf '%s\n' $row | prints 'a row before the stops' 'frame 1'
printf '%s\n' $pivot | prints 'a pivot before the stops' 'frame 1'
printf '%s\n' $stops $row $stops $ask | prints 'the stops twice' 'frame 3'
printf '%s\n' $stops $ask 04 $ask | prints 'nothing after a line that is no frame' $'none 0\nframe 3'

printf '%s\n' 01000g | prints 'a letter that is no digit' 'frame 1'
printf '%s\n' 01000G | prints 'a capital letter that is no digit' 'frame 1'
printf '%s\n' $stops 0200000001000000640000001/00 | prints 'a byte before the figures' 'frame 2'
printf '%s\n' $stops 0200000001000000640000001:00 | prints 'a byte after the figures' 'frame 2'
printf '%s\n' $stops 0200000001000000640000001@00 | prints 'a byte before the capitals' 'frame 2'
printf '%s\n' $stops 0200000001000000640000001\`00 | prints 'a byte before the letters' 'frame 2'
printf '0100\0005\n' | prints 'a zero byte' 'frame 1'
printf '01000\3005\n' | prints 'a byte above 127' 'frame 1'
printf '%s\n' '01 0005' | prints 'a space between' 'frame 1'
printf '%s\n' ' 010005' | prints 'a space before' 'frame 1'
printf '%s\n' '010005 ' | prints 'a space after' 'frame 1'
printf '%s\t%s\n' $stops $ask | prints 'a tab between two frames' 'frame 1'
printf '%s\0%s\n' $stops $ask | prints 'a zero byte between two frames' 'frame 1'
printf '%s\n\t%s\n' $stops $ask | prints 'a tab at the start of a line' 'frame 2'
printf '%s\n\0%s\n' $stops $ask | prints 'a zero byte at the start of a line' 'frame 2'
printf '%s\n%s\0\n%s\n' $stops $ask $ask | prints 'a zero byte at the end of a line' 'frame 2'
printf '%s\r\n' $stops $ask | prints 'carriage returns' 'frame 1'

printf '\n' | prints 'an empty line alone' 'frame 1'
printf '%s\n' $stops '' $ask | prints 'an empty line between' 'frame 2'
printf '%s\n\n' $stops | prints 'an empty line at the end' 'frame 2'
printf '%s\n' 0 | prints 'one digit' 'frame 1'
printf '%s\n' 000005 | prints 'type 00' 'frame 1'
printf '%s\n' $stops 050002000000000a | prints 'type 05' 'frame 2'
printf '%s\n' 01005 | prints 'stops of 3 digits' 'frame 1'
printf '%s\n' 0100005 | prints 'stops of 5 digits' 'frame 1'
printf '%s\n' $stops ${row}0 | prints 'a row of one digit more' 'frame 2'
printf '%s\n' $stops ${row%0} | prints 'a row of one digit less' 'frame 2'
printf '%s\n' $stops ${pivot}0 | prints 'a pivot of one digit more' 'frame 2'
printf '%s\n' $stops ${ask}0 | prints 'an ask of one digit more' 'frame 2'

printf '%s\n%s' $stops $ask | prints 'a last line without its newline' 'none 0'
printf '%s\n%s' $stops 04 | prints 'a last line cut short' 'frame 2'
printf '%s' ${row}0 | prints 'a long last line' 'frame 1'
printf 0 | prints 'a last line of one digit without its newline' 'frame 1'
printf '%s\n%s\n0' $stops $ask | prints 'the same after right lines' $'none 0\nframe 3'
printf '%s\n\t' $stops | prints 'a last line of a tab without its newline' 'frame 2'

{ printf '%s\n' $stops; times 2048 $row; printf '%s\n' $ask; } | prints '2,048 rows' 'none 0'
{ printf '%s\n' $stops; times 2049 $row; printf '%s\n' $ask; } | prints '2,049 rows' 'frame 2050'
{ printf '%s\n' $stops; times 16 $pivot; } | prints '16 pivots' ''
{ printf '%s\n' $stops; times 17 $pivot; printf '%s\n' $ask; } | prints '17 pivots' 'frame 18'

{ printf '%s\n' $stops; head -c 50000000 /dev/zero | tr '\0' 0; } 2>/dev/null | prints 'a line of 50 million digits' 'frame 2'
{ printf '%s\n' $stops; yes 0 | tr -d '\n'; } 2>/dev/null | prints 'a line without an end' 'frame 2'
yes 2>/dev/null | prints 'an input without an end' 'frame 1'

prints 'an input that cannot be read' '' </

# day D with two pivots, each with places of its own
{ grep -v '^0[34]' crates/figures_program/stdin; printf '%s\n' 030003000000fa 03000200000096 0400000000640000012c; } | prints 'two pivots' '105 0 4 2'

# The document's example reads alike however it is split, and in capitals.
example=crates/figures_program/stdin
plain=$(program <$example)

# alike WHAT: standard input leads to what the example prints
alike() {
    local got
    got=$(program)
    same "$1" "$plain" "$got" $?
}

tr a-f A-F <$example | alike 'the example in capitals'
printf '%s' "$(cat $example)" | alike 'the example without its last newline'
dd bs=1 if=$example status=none | alike 'the example, a byte at a time'
while IFS= read -r line; do
    printf '%s' "${line:0:3}"
    sleep 0.02
    printf '%s' "${line:3}"
    sleep 0.02
    printf '\n'
done <$example | alike 'the example in small pieces'

tools/limit 300 "damaged: the inputs that a shell cannot make" python3 -B -W error tests/damaged/test_input.py 2>"$said" ||
    { cat "$said" >&2 && failed=1; }

exit $failed
