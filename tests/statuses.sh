#!/usr/bin/env bash
# What the built program prints where, and how it ends: each status, and the lines on standard error. Prints what
# differs. Needs the built program (rt run in crates/auction_cli, or rt ci): tests/statuses.sh [PROGRAM]
set -uo pipefail
top=$(cd "$(dirname "$0")/.." && pwd)
program=${1:-$top/crates/auction_cli/out/auction_cli}
work=$(mktemp -d)
trap 'rm -rf "$work"' EXIT
failed=0

# Compares one case.
compare() {
    if [ "$2" != "$3" ]; then
        echo "$1: wanted $(printf %q "$2"), got $(printf %q "$3")"
        failed=$((failed + 1))
    fi
}

# expect INPUT STATUS OUT ERR WORD..: the status, and all of standard output and standard error.
expect() {
    local input=$1 wanted=$2 out=$3 err=$4 status=0
    shift 4
    printf "$input" | "$program" "$@" > "$work/out" 2> "$work/err" || status=$?
    compare "'$input' $*" "$wanted|$(printf "$out")|$err" "$status|$(cat "$work/out")|$(cat "$work/err")"
}

# firsts STATUS OUT ERR WORD..: the status, and the first lines of both.
firsts() {
    local wanted=$1 out=$2 err=$3 status=0
    shift 3
    "$program" "$@" < /dev/null > "$work/out" 2> "$work/err" || status=$?
    compare "$*" "$wanted|$out|$err" "$status|$(head -1 "$work/out")|$(head -1 "$work/err")"
}

expect '1 7' 0 'sense min\ncost 7\nassign 1 1 7\n' '' solve
expect '2 1 2 3 5' 0 'sense min\ncost 5\nassign 1 2 2\nassign 2 1 3\n' '' solve
expect '2 1 2 3 5' 0 'sense max\ncost 6\nassign 1 1 1\nassign 2 2 5\nprice 1 12\nprice 2 14\n' '' solve --max --prices
expect '3 1 1 4 2 1 6 3 2 1 3 3 2' 1 'sense min\ninfeasible\npersons 2 1 2\nobjects 1 1\n' '' solve --sparse
expect '3' 1 'sense min\ninfeasible\npersons 1 1\nobjects 0\n' '' solve --sparse
for mode in '--mode rounds' '--mode workers' '--mode workers --workers 1 --refresh 0' '--mode=workers --workers=64 --refresh=1000000'; do
    expect '2 1 2 3 5' 0 'sense min\ncost 5\nassign 1 2 2\nassign 2 1 3\n' '' solve $mode
    expect '3 1 1 4 2 1 6 3 2 1 3 3 2' 1 'sense min\ninfeasible\npersons 2 1 2\nobjects 1 1\n' '' solve --sparse $mode
    expect '1 7 8' 3 '' 'input: extra data at byte 4' solve $mode
done
for method in '--method auction' '--method paths' '--method=paths --mode workers --workers 64 --refresh 0'; do
    expect '1 7' 0 'sense min\ncost 7\nassign 1 1 7\n' '' solve $method
    expect '2 1 2 3 5' 0 'sense min\ncost 5\nassign 1 2 2\nassign 2 1 3\n' '' solve $method
    expect '2 1 2 3 5' 0 'sense max\ncost 6\nassign 1 1 1\nassign 2 2 5\n' '' solve --max $method
    expect '3 1 1 4 2 1 6 3 2 1 3 3 2' 1 'sense min\ninfeasible\npersons 2 1 2\nobjects 1 1\n' '' solve --sparse $method
    expect '1 7 8' 3 '' 'input: extra data at byte 4' solve $method
done
expect '1 7' 2 '' 'usage: mode is rounds or workers' solve --method paths --mode round
for mode in round WORKERS ''; do
    expect '1 7' 2 '' 'usage: mode is rounds or workers' solve --mode "$mode"
done
expect '' 3 '' 'input: empty' solve
expect ' \n' 3 '' 'input: empty' solve
expect 'x' 3 '' 'input: bad number at byte 0' solve
expect '1 3.0' 3 '' 'input: bad number at byte 2' solve
expect '8193 1' 3 '' 'input: size out of range' solve
expect '0' 3 '' 'input: size out of range' solve
expect '1 1000000000001' 3 '' 'input: cost out of range at byte 2' solve
expect '2 3 1 5' 3 '' 'input: index out of range at byte 2' solve --sparse
expect '2 1 2' 3 '' 'input: truncated after 3 numbers' solve
expect '1 7 x' 3 '' 'input: extra data at byte 4' solve
printf '2 1 2 3 5' | "$program" solve --prices > "$work/report"
expect '2 1 2 3 5' 0 'verified cost 5\n' '' verify "$work/report"
expect '2 1 2 4 5' 5 'not verified: cost of person 2\n' '' verify "$work/report"
expect '2 1 2 3' 3 '' 'input: truncated after 4 numbers' verify "$work/report"
printf '2 1 2 3 5' | "$program" solve --max --prices > "$work/greatest"
expect '2 1 2 3 5' 0 'verified max cost 6\n' '' verify "$work/greatest"
expect '2 1 2 3 5' 0 'verified cost 5\n' '' verify --sense min "$work/report"
expect '2 1 2 3 5' 5 'not verified: sense\n' '' verify "$work/report" --sense=max
expect '2 1 2 3 5' 5 'not verified: sense\n' '' verify --sense min "$work/greatest"
expect '2 1 2 3 5' 0 'verified max cost 6\n' '' verify --sense max "$work/greatest"
expect '2 1 2 4 5' 5 'not verified: sense\n' '' verify --sense max "$work/report"
expect '2 1 2 3' 3 '' 'input: truncated after 4 numbers' verify --sense max "$work/report"
tail -n +2 "$work/report" > "$work/first_version"
expect '2 1 2 3 5' 0 'verified cost 5\n' '' verify --sense min "$work/first_version"
expect '2 1 2 3 5' 5 'not verified: sense\n' '' verify --sense max "$work/first_version"
for sense in MIN least ''; do
    expect '2 1 2 3 5' 2 '' 'usage: sense is min or max' verify --sense "$sense" "$work/report"
done
printf 'cost 5\nassign 1 02 2\n' > "$work/bad"
expect '2 1 2 3 5' 3 '' 'report: bad line 2' verify "$work/bad"
expect '2 1 2 3 5' 4 '' 'device: read failed' verify "$work"
expect 'x' 3 '' 'input: bad number at byte 0' verify "$work"
expect 'x' 4 '' 'device: cannot open the report' verify "$work/none"
expect '2 1 2 3 5' 0 'sense min\ncost 5\nassign 1 2 2\nassign 2 1 3\nprice 1 26\nprice 2 24\n' '' solve --prices --start "$work/report"
expect '1 7' 3 '' 'start: 2 prices' solve --start "$work/report"
expect '2 1 2 3 5' 3 '' 'report: bad line 2' solve --start "$work/bad"
expect '2 1 2 3 5' 4 '' 'device: read failed' solve --start "$work"
expect 'x' 3 '' 'input: bad number at byte 0' solve --start "$work"
expect 'x' 4 '' 'device: cannot open the report' solve --start "$work/none"

# named STATUS OUT ERR WORD..: the same of words that name the problem's file, and that all of another problem on standard
# input is left.
printf '2 1 2 3 5' > "$work/problem"
printf '1 7' > "$work/other"
named() {
    local wanted=$1 out=$2 err=$3 left
    shift 3
    left=$({ "$program" "$@" > "$work/out" 2> "$work/err"; echo "$?" > "$work/status"; cat; } < "$work/other")
    compare "$*" "$wanted|$(printf "$out")|$err|1 7" "$(cat "$work/status")|$(cat "$work/out")|$(cat "$work/err")|$left"
}

named 0 'sense min\ncost 5\nassign 1 2 2\nassign 2 1 3\n' '' solve --input "$work/problem"
named 0 'sense max\ncost 6\nassign 1 1 1\nassign 2 2 5\n' '' solve --max --method paths --input="$work/problem"
named 0 'sense min\ncost 5\nassign 1 2 2\nassign 2 1 3\nprice 1 26\nprice 2 24\n' '' solve --prices --start "$work/report" --input "$work/problem"
named 0 'verified cost 5\n' '' verify --input "$work/problem" "$work/report"
named 5 'not verified: sense\n' '' verify "$work/report" --sense max --input "$work/problem"
named 3 '' 'input: bad number at byte 0' solve --input "$work/report"
named 4 '' 'device: read failed' solve --input "$work"
named 4 '' 'device: read failed' verify --input "$work" "$work/bad"
for name in "$work/none" ''; do
    named 4 '' 'device: cannot open the input' solve --input "$name"
    named 4 '' 'device: cannot open the input' solve --start "$work/report" --input "$name"
    named 4 '' 'device: cannot open the input' verify --input "$name" "$work/report"
    named 4 '' 'device: cannot open the report' solve --input "$name" --start "$work/none"
    named 4 '' 'device: cannot open the report' verify --input "$name" "$work/none"
    named 2 '' 'usage: mode is rounds or workers' solve --mode round --input "$name"
    named 2 '' 'usage: sense is min or max' verify --sense most --input "$name" "$work/none"
done
named 4 '' 'device: cannot open the report' verify --input "$work/problem" "$work/none"

for method in auction paths; do
    expect '2 1 2 3 5' 0 'sense min\ncost 5\nassign 1 2 2\nassign 2 1 3\n' '' solve --method $method --start "$work/report"
    expect '1 7' 3 '' 'start: 2 prices' solve --method $method --start "$work/report"
    expect '2 1 2 3 5' 3 '' 'report: bad line 2' solve --method $method --start "$work/bad"
    expect 'x' 4 '' 'device: cannot open the report' solve --method $method --start "$work/none"
    printf '3 9 9 1 9 1 9 1 9 9' | "$program" solve --method $method --prices > "$work/three"
    expect '3 9 9 1 9 1 9 1 9 9' 0 'verified cost 3\n' '' verify "$work/three"
done
printf '3 1 1 4 2 1 6 3 2 1 3 3 2' | "$program" solve --sparse > "$work/refusal"
expect '2 1 2 3 5' 3 '' 'start: no prices' solve --start "$work/refusal"
expect '3 1 1 4 2 1 6 3 2 1 3 3 2' 0 'verified infeasible\n' '' verify --sparse "$work/refusal"
expect '3 1 1 4 2 1 6 3 2 1 3 3 2' 0 'verified infeasible\n' '' verify --sparse --sense min "$work/refusal"
expect '3 1 1 4 2 1 6 3 2 1 3 3 2' 5 'not verified: sense\n' '' verify --sparse --sense max "$work/refusal"
firsts 0 'Read a problem from standard input, and write a best assignment or why there is none' '' solve --help
firsts 0 'Read a problem from standard input, and check a report on it' '' verify --help
hint=$'\n\nFor more information, try \'--help\'.\n\nTo read the problem from a file, write \'--input\' before its name.'
expect '1 7' 2 '' $'error: unexpected argument \'costs.txt\' found\n\nUsage: auction_cli solve [OPTIONS]'"$hint" solve costs.txt
expect '1 7' 2 '' $'error: unexpected argument \'costs.txt\' found\n\nUsage: auction_cli verify [OPTIONS] <REPORT>'"$hint" verify "$work/report" costs.txt
firsts 0 'Solve assignment problems and check reports; the problem comes on standard input' '' --help
expect '' 0 "auction_cli $(cat "$top/VERSION")\n" '' --version
firsts 2 '' "error: unexpected argument '-V' found" -V
for word in solve verify; do
    firsts 2 '' "error: unexpected argument '--version' found" $word --version
done
firsts 2 '' "error: unexpected argument '--greatest' found" solve --greatest
for number in 0 65 four -1; do
    firsts 2 '' "error: invalid value '$number' for '--workers <K>': $(case $number in four | -1) echo 'invalid digit found in string' ;; *) echo "$number is not in 1..=64" ;; esac)" solve --workers="$number"
done
firsts 2 '' "error: invalid value '1000001' for '--refresh <R>': 1000001 is not in 0..=1000000" solve --refresh 1000001
for method in path Paths rounds; do
    firsts 2 '' "error: invalid value '$method' for '--method <METHOD>'" solve --method $method
done
compare 'the methods that there are' '  [possible values: auction, paths]' "$(sed -n 2p "$work/err")"
firsts 2 '' "error: the argument '--method <METHOD>' cannot be used multiple times" solve --method paths --method auction
firsts 2 '' "error: the argument '--input <FILE>' cannot be used multiple times" solve --input "$work/problem" --input "$work/problem"
firsts 2 '' "error: the argument '--input <FILE>' cannot be used multiple times" verify --input "$work/problem" "$work/report" --input "$work/problem"
firsts 2 '' "error: a value is required for '--input <FILE>' but none was supplied" solve --input
firsts 2 '' 'error: the following required arguments were not provided:' verify
firsts 2 '' "error: 'auction_cli' requires a subcommand but one was not provided"
firsts 2 '' 'error: the words are no text' solve $'\xff'

# Help names each option.
for word in solve verify; do
    "$program" --help | grep -q "^  $word  *[A-Z]" || { echo "help is silent on $word"; failed=$((failed + 1)); }
done
for option in sparse 'input <FILE>' max prices 'start <REPORT>' 'method <METHOD>' 'mode <MODE>' 'workers <K>' 'refresh <R>'; do
    "$program" solve --help | grep -q -- "--$option  *[A-Z]" || { echo "help of solve is silent on --$option"; failed=$((failed + 1)); }
done
for option in --sparse '--input <FILE>' '--sense <SENSE>' '<REPORT>'; do
    "$program" verify --help | grep -q -- "$option  *[A-Z]" || { echo "help of verify is silent on $option"; failed=$((failed + 1)); }
done

# Help says what is read and from where, in both layouts, each status and an example.
for word in solve verify; do
    for line in 'Reads the problem from standard input, with --input FILE from that file' 'dense:  *n, then' '--sparse:  *n, then PERSON OBJECT COST' 'Exit status:' 'Example:' "auction_cli $word .*< " "auction_cli $word .*--input "; do
        "$program" $word --help | grep -q -- "^ *$line" || { echo "help of $word is silent on '$line'"; failed=$((failed + 1)); }
    done
done
for status in 'solve 0' 'solve 1' 'solve 2' 'solve 3' 'solve 4' 'verify 0' 'verify 2' 'verify 3' 'verify 4' 'verify 5'; do
    "$program" ${status% *} --help | grep -q "^  ${status#* }  [a-z]" || { echo "help of ${status% *} is silent on status ${status#* }"; failed=$((failed + 1)); }
done
"$program" --help | grep -q '^      --version  *[A-Z]' || { echo 'help is silent on --version'; failed=$((failed + 1)); }

# closed STREAM STATUS OUT ERR WORD..: with a problem on standard input, and one of the three streams closed (0, 1 or 2).
closed() {
    local stream=$1 wanted=$2 out=$3 err=$4 status=0
    shift 4
    : > "$work/out"
    : > "$work/err"
    case $stream in
        0) "$program" "$@" <&- > "$work/out" 2> "$work/err" || status=$? ;;
        1) "$program" "$@" < "$work/problem" >&- 2> "$work/err" || status=$? ;;
        2) "$program" "$@" < "$work/problem" > "$work/out" 2>&- || status=$? ;;
    esac
    compare "stream $stream closed, $*" "$wanted|$(printf "$out")|$err" "$status|$(cat "$work/out")|$(cat "$work/err")"
}

# The report is a problem too, so that one that is read in place of standard input gives another line.
for words in 'solve' "verify $work/report" "solve --start $work/report" "verify $work/problem" "solve --start $work/problem"; do
    closed 0 4 '' 'device: read failed' $words
done
closed 0 4 '' 'device: cannot open the report' verify "$work/none"
closed 0 4 '' 'device: cannot open the report' solve --start "$work/none"
closed 0 2 '' 'usage: mode is rounds or workers' solve --mode none --start "$work/report"
closed 0 0 'sense min\ncost 5\nassign 1 2 2\nassign 2 1 3\n' '' solve --input "$work/problem"
closed 0 0 'sense min\ncost 5\nassign 1 2 2\nassign 2 1 3\nprice 1 26\nprice 2 24\n' '' solve --prices --start "$work/report" --input "$work/problem"
closed 0 0 'verified cost 5\n' '' verify --input "$work/problem" "$work/report"
closed 0 4 '' 'device: cannot open the input' verify --input "$work/none" "$work/report"
closed 0 4 '' 'device: cannot open the report' verify --input "$work/problem" "$work/none"
closed 1 4 '' 'device: write failed' solve
closed 1 4 '' 'device: write failed' solve --start "$work/report"
closed 1 4 '' 'device: write failed' verify "$work/report"
closed 1 4 '' 'device: write failed' --help
closed 2 0 'sense min\ncost 5\nassign 1 2 2\nassign 2 1 3\n' '' solve --start "$work/report"
closed 2 0 'verified cost 5\n' '' verify "$work/report"
closed 2 3 '' '' solve --start "$work/bad"
closed 2 4 '' '' verify "$work/none"
closed 2 2 '' '' solve --greatest
cp "$work/report" "$work/kept"
closed 1 4 '' 'device: write failed' verify "$work/report"
compare 'a report behind closed output' "$(cat "$work/kept")" "$(cat "$work/report")"

status=0
printf '2 1 2 3 5' | "$program" solve > /dev/full 2> "$work/err" || status=$?
compare 'a full device' '4|device: write failed' "$status|$(cat "$work/err")"
status=0
"$program" solve < "$work" > "$work/out" 2> "$work/err" || status=$?
compare 'a folder as input' '4||device: read failed' "$status|$(cat "$work/out")|$(cat "$work/err")"
status=0
"$program" solve --help > /dev/full 2> "$work/err" || status=$?
compare 'help on a full device' '4|device: write failed' "$status|$(cat "$work/err")"
status=0
printf x | "$program" solve > "$work/out" 2> /dev/full || status=$?
compare 'a fault on a full device' '3|' "$status|$(cat "$work/out")"
status=0
"$program" verify > "$work/out" 2> /dev/full || status=$?
compare 'refused words on a full device' '2|' "$status|$(cat "$work/out")"
[ "$failed" = 0 ]
