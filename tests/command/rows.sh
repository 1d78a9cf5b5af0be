#!/bin/sh
# kelubashi check and kelubashi rows, for each exit status and each line, run as tests/command/subcommands.sh is. check is given P10's row, as document 01
# has it, and others worked out by hand, changed word by word; what rows writes is held, byte by byte, to the second program's rows.
set -eu
cd "$(dirname "$0")/../.."
. tests/command/calls.sh

# ---- Rows made of words.

# The file $1 of these rows, each a list of eighteen words.
rows() {
    made=$1
    shift
    # shellcheck disable=SC2048,SC2086 # lists of words
    bytes "$(printf %016x $#)" $* >"$made"
}

# P10: mu 0, position (1, 0, 0), at rest, tau 1; psi is 1, and the figures are those of document 01. The rules give the same figures for P11,
# where psi is -1, and for a tau of either zero, where it is +0.
p10="$zero $one $zero $zero $zero $zero $zero $one $one $one $zero $zero $zero $zero $zero $minus_zero $minus_zero $minus_zero"
p11=$(with "$p10" "7=$minus_one 8=$minus_one")
still=$(with "$p10" "7=$zero 8=$zero")
still_below=$(with "$p10" "7=$minus_zero 8=$zero")

# The same at 3 km: by the rules 3 psi is rounded to 1 at two neighbouring psi, and both are exact. The search takes the lower, its outward point 20.
third=3fd5555555555555 above_third=3fd5555555555556
p10_far=$(with "$p10" "1=4008000000000000 8=$third 9=4008000000000000")

# P12's input, which our search refuses by 6: its first point lies too far out. The rules have an anomaly before it, past the interval and nearer to
# it than its neighbour; f and g' are 1, g is tau, and so the end is at (1, 2^540, 0), with the velocity of the start.
p12="$zero $one $zero $zero $zero 5f30000000000000 $zero 4270000000000000 21376fe1ca6b6637 \
$one 61b0000000000000 $zero $zero 5f30000000000000 $zero $minus_zero $minus_zero $minus_zero"

# ---- check: the rows, and what is shown of those that are not accepted.

given=$room/given

# Of the given file so many rows are accepted, and of the others these lines are shown, whole; with -q these alone.
judged() {
    accepted=$1 verdict=0
    shift
    : >"$room/lines"
    [ $# -eq 0 ] || { verdict=1 && printf '%s\n' "$@" >"$room/lines"; }
    kelubashi $verdict check -q "$given"
    diff "$room/wrote" "$room/lines" >"$room/differ" || fail "$asked: it shows what is marked <, and not what is marked >: $(cat "$room/differ")"
    says ''
    echo "$given: rows $((accepted + $#)): accepted $accepted, not accepted $#" >>"$room/lines"
    kelubashi $verdict check "$given"
    writes "$room/lines"
    says ''
}

rows "$given"
judged 0
rows "$given" "$p10" "$p11" "$still" "$still_below" "$p10_far" "$(with "$p10_far" "8=$above_third")" "$p12"
judged 7

# Each figure in turn another by one place, or by a sign, with its name and unit; then two, and all nine.
rows "$given" "$(with "$p10" "9=$above_one")" "$(with "$p10" "10=$least")" "$(with "$p10" "11=$minus_zero")" \
    "$(with "$p10" "12=$least")" "$(with "$p10" "13=$minus_zero")" "$(with "$p10" "14=$infinity")" \
    "$(with "$p10" "15=$zero")" "$(with "$p10" "16=$nan")" "$(with "$p10" "17=8000000000000001")" "$p10" \
    "$(with "$p10" "16=$zero 10=$one")" "$(with "$p11" "9=$zero 10=$one 11=$one 12=$one 13=$one 14=$one 15=$one 16=$one 17=$one")"
ours=': not accepted: its psi is ours, but'
judged 1 "row 0$ours end x is 1.0000000000000002 km, and ours 1 km; figures that differ: 1 of 9" \
    "row 1$ours end y is 4.9406564584124654e-324 km, and ours 0 km; figures that differ: 1 of 9" \
    "row 2$ours end z is -0 km, and ours 0 km; figures that differ: 1 of 9" \
    "row 3$ours end vx is 4.9406564584124654e-324 km/s, and ours 0 km/s; figures that differ: 1 of 9" \
    "row 4$ours end vy is -0 km/s, and ours 0 km/s; figures that differ: 1 of 9" \
    "row 5$ours end vz is inf km/s, and ours 0 km/s; figures that differ: 1 of 9" \
    "row 6$ours end ax is 0 km/s^2, and ours -0 km/s^2; figures that differ: 1 of 9" \
    "row 7$ours end ay is nan km/s^2, and ours -0 km/s^2; figures that differ: 1 of 9" \
    "row 8$ours end az is -4.9406564584124654e-324 km/s^2, and ours -0 km/s^2; figures that differ: 1 of 9" \
    "row 10$ours end y is 1 km, and ours 0 km; figures that differ: 2 of 9" \
    "row 11$ours end x is 0 km, and ours 1 km; figures that differ: 9 of 9"

# Other anomalies: by a place, by all places down to 0, of the other sign, not finite.
rows "$given" "$(with "$p10" "8=$above_one")" "$(with "$p10" "8=$below_one")" "$(with "$p10" "8=$zero")" "$(with "$p10" "8=$minus_one")" \
    "$(with "$p11" "8=$one")" "$(with "$p11" "8=bff0000000000010")" "$(with "$still" "8=$minus_zero")" "$(with "$still_below" "8=$minus_zero")" \
    "$(with "$still" "8=$least")" "$(with "$p10" "8=$infinity")" "$(with "$p11" "8=fff0000000000000")" "$(with "$p10" "8=$nan")" \
    "$(with "$p10" "8=7fefffffffffffff")"
judged 0 'row 0: not accepted; its psi is 1.0000000000000002 s/km, and ours 1 s/km; places apart: 1' \
    'row 1: not accepted; its psi is 0.99999999999999989 s/km, and ours 1 s/km; places apart: 1' \
    'row 2: not accepted; its psi is 0 s/km, and ours 1 s/km; places apart: 4607182418800017408' \
    'row 3: not accepted: its psi is -1 s/km, of the other sign, and ours 1 s/km' \
    'row 4: not accepted: its psi is 1 s/km, of the other sign, and ours -1 s/km' \
    'row 5: not accepted; its psi is -1.0000000000000036 s/km, and ours -1 s/km; places apart: 16' \
    'row 6: not accepted: its psi is -0 s/km, of the other sign, and ours 0 s/km' \
    'row 7: not accepted: its psi is -0 s/km, of the other sign, and ours 0 s/km' \
    'row 8: not accepted; its psi is 4.9406564584124654e-324 s/km, and ours 0 s/km; places apart: 1' \
    'row 9: not accepted: its psi is inf s/km, not finite, and ours 1 s/km' \
    'row 10: not accepted: its psi is -inf s/km, not finite, and ours -1 s/km' \
    'row 11: not accepted: its psi is nan s/km, not finite, and ours 1 s/km' \
    'row 12: not accepted; its psi is 1.7976931348623157e+308 s/km, and ours 1 s/km; places apart: 4611686018427387903'

# Beside the two exact anomalies there is none; and where the one that is not ours has another figure, it is not said that the anomaly is at fault.
rows "$given" "$(with "$p10_far" '8=3fd5555555555554')" "$(with "$p10_far" '8=3fd5555555555557')" "$(with "$p10_far" "8=$above_third 9=$one")"
judged 0 'row 0: not accepted; its psi is 0.33333333333333326 s/km, and ours 0.33333333333333331 s/km; places apart: 1' \
    'row 1: not accepted; its psi is 0.33333333333333343 s/km, and ours 0.33333333333333331 s/km; places apart: 2' \
    'row 2: not accepted; its psi is 0.33333333333333337 s/km, and ours 0.33333333333333331 s/km; places apart: 1'

# An input that our own call refuses: $1 is the number, $2 how the line goes on before it, $3 the row.
refused() {
    rows "$given" "$p10" "$3"
    kelubashi 1 check -q "$given"
    says ''
    case $(cat "$room/wrote") in
    "row 1: not accepted$2 refused ($1): "*"; "*) ;;
    *) fail "$asked: it shows '$(cat "$room/wrote")', and not that our own call refuses row 1 by $1" ;;
    esac
    [ "$(wc -l <"$room/wrote")" -eq 1 ] || fail "$asked: it shows more than a line"
    kelubashi 1 check "$given"
    shows "$given: rows 2: accepted 1, not accepted 1"
}
input=': its input is' answer='; our own answer to its input is'
for place in 0 1 2 3 4 5 6 7; do
    refused $((31 + place)) "$input" "$(with "$p10" "$place=$nan")"
    refused $((31 + place)) "$input" "$(with "$p10" "$place=fff0000000000000 7=$infinity")"
done
refused 3 "$input" "$(with "$p10" "1=$zero")"
refused 3 "$input" "$(with "$p10" '1=1a70000000000000')"     # P8: 2^-600
refused 4 "$input" "$(with "$p10" '1=6570000000000000')"     # P9: 2^600
refused 6 "$answer" "$(with "$p12" "9=$above_one")"
refused 6 "$answer" "$(with "$p12" '8=21376fe1ca6b6636')"    # the end that is short, and farther

# The row of an orbit's eight figures, as a person writes them, with zeros behind them.
orbit() {
    printf 'centre %s\nstate 0 0 %s %s %s %s %s %s\nrequest 0 %s\n' "$@" >"$room/orbit.txt"
    kelubashi 0 elements -q "$room/orbit.txt" -o "$room/orbit"
    for place in 16 48 56 64 72 80 88 112; do
        od -An -v -t x8 -j $place -N 8 "$room/orbit"
    done | tr '\n' ' '
    yes $zero | head -n 10 | tr '\n' ' '
}
refused 5 "$answer" "$(orbit 1e200 1e-100 0 0 0 0 0 1e-200)"
refused 6 "$answer" "$(orbit 398600.4418 7000 0 0 0 7.5 0 1e300)"
refused 7 "$answer" "$(orbit 0 -1e10 0 0 -1e10 0 0 -1000)"
refused 8 "$answer" "$(orbit -2 1e-150 0 0 0.001 0 0 0)"

# The example of kelubashi-check.1: the rows of examples/orbits.elements, four of them changed.
example=examples/orbits.elements
second_rows <$example >"$room/sent"
set --
for row in 0 1 2 3 4 5 6 7 8 9 10 11 12; do
    words=$(od -An -v -t x8 -w144 -j $((8 + 144 * row)) -N 144 "$room/sent")
    case $row in
    1) words=$(with "$words" "8=$(printf %016x $((0x$(echo "$words" | cut -d ' ' -f 10) + 1)))") ;;
    3) words=$(with "$words" "8=$(echo "$words" | cut -d ' ' -f 10 | sed 's/^3/b/')") ;;
    4) words=$(with "$words" "10=$(printf %016x $((0x$(echo "$words" | cut -d ' ' -f 12) + 1))) 17=$zero") ;;
    6) words=$(with "$words" "1=$zero 2=$zero 3=$zero") ;;
    esac
    set -- "$@" "$words"
done
rows "$given" "$@"
kelubashi 1 check "$given"
page kelubashi-check.1 | sed -n '/^row 1: /,/^\.EE/p' | sed "\$d; s|^partner\.rows|$given|" >"$room/page"
diff "$room/page" "$room/wrote" || fail 'the example of kelubashi-check.1, marked <, is not what check shows of it'

# ---- check: files that are refused, with the byte, and whose word that is.

# The given file is refused by $1 at byte $2, where $3 stands; $4 is -q or nothing.
torn() {
    # shellcheck disable=SC2086 # a list of words
    kelubashi 2 check ${4:-} "$given"
    writes_nothing
    case $(cat "$room/said") in
    "kelubashi check: $given: at byte $2, $3: refused ($1): "*"; "*) ;;
    *) fail "$asked: it says '$(cat "$room/said")' and not that $1 refuses it at byte $2, $3" ;;
    esac
    [ "$(wc -l <"$room/said")" -eq 1 ] || fail "$asked: it says more than a line"
}
count='the count of rows' behind='behind the last row'

# Every word of the second row, and the count: not there, and a byte short.
rows "$room/two" "$p10" "$p11"
place=152
for word in mu x y z vx vy vz tau psi 'end x' 'end y' 'end z' 'end vx' 'end vy' 'end vz' 'end ax' 'end ay' 'end az'; do
    for more in 0 7; do
        head -c $((place + more)) "$room/two" >"$given"
        torn 21 $place "$word of row 1"
    done
    place=$((place + 8))
done
: >"$given"
torn 21 0 "$count"
torn 21 0 "$count" -q
head -c 7 "$room/two" >"$given"
torn 21 0 "$count"
head -c 8 "$room/two" >"$given"
torn 21 8 'mu of row 0'
for left in 1 8 144; do
    { cat "$room/two" && head -c $left /dev/zero; } >"$given"
    torn 25 296 "$behind"
done
head -c 9 /dev/zero >"$given"
torn 25 8 "$behind"
torn 25 8 "$behind" -q
for word in 0000000000000191 ffffffffffffffff 8000000000000001 0000000100000000; do
    bytes $word >"$given"
    torn 23 0 "$count"
    { bytes $word && tail -c +9 "$room/two"; } >"$given"
    torn 23 0 "$count"
done

# The fullest file: 400 rows, 57,608 bytes.
{ echo 'centre 398600.4418' && echo 'state 0 0 1131.340 -2282.343 6672.423 -5.64305 4.30333 2.42879' &&
    awk 'BEGIN { for (i = 0; i < 400; i++) print "request 0", 37 * (i - 200) }'; } >"$room/full.txt"
kelubashi 0 elements -q "$room/full.txt" -o "$room/full"
second_rows <"$room/full" >"$room/full.rows"
[ "$(wc -c <"$room/full.rows")" -eq 57608 ] || fail 'the second program does not give 400 rows'
cp "$room/full.rows" "$given"
judged 400
head -c 57607 "$room/full.rows" >"$given"
torn 21 57600 'end az of row 399'
for left in 1 200000; do
    { cat "$room/full.rows" && head -c $left /dev/zero; } >"$given"
    torn 25 57608 "$behind"
done
{ bytes 0000000000000191 && tail -c +9 "$room/full.rows" && tail -c 144 "$room/full.rows"; } >"$given"
torn 23 0 "$count"
{ bytes 000000000000018f && tail -c +9 "$room/full.rows"; } >"$given"
torn 25 57464 "$behind"

# All of them with a turned sign, of the anomaly or of the last figure.
turned() {
    {
        head -c 8 "$room/full.rows"
        od -An -v -t x8 -w144 -j 8 "$room/full.rows" | awk -v at="$1" '{
            $at = substr("89abcdef01234567", index("0123456789abcdef", substr($at, 1, 1)), 1) substr($at, 2)
            print
        }' >"$room/words"
        # shellcheck disable=SC2046 # lists of words
        bytes $(cat "$room/words")
    } >"$given"
    kelubashi 1 check "$given"
    shows "$given: rows 400: accepted 0, not accepted 400"
    [ "$(grep -c "$2" "$room/wrote")" -eq "$3" ] || fail "$asked: it does not show $3 lines with '$2'"
}
turned 9 ': not accepted: its psi is .* s/km, of the other sign, and ours ' 400
turned 18 ': not accepted: its psi is ours, but end az is .* km/s^2, and ours .*; figures that differ: 1 of 9$' 400

# ---- check: not done, and faults.

unread "kelubashi check: 1 of 1 words are missing: usage: kelubashi check ROWS" check
unread "kelubashi check: 'b' is one word too many: usage: kelubashi check ROWS" check a b
unread "kelubashi check: -o is no option of it: see kelubashi check --help" check a -o b
unread "kelubashi check: --from is no option of it: see kelubashi check --help" check a --from 1
unread "kelubashi check: $room/missing: cannot be read: No such file or directory: correct the name" check "$room/missing"
unread "kelubashi check: $room: cannot be read: Is a directory: name a file and not a folder" check -q "$room"
cp "$room/two" "$given"
unwritten 'kelubashi check' check "$given"
fault 0 few check "$given"
shows "$given: rows 2: accepted 2, not accepted 0"
fault 2 unread check "$given"
writes_nothing
says "kelubashi check: $given: cannot be read: Input/output error: look at that disk or device"
fault 2 'no verdicts' check "$given"
writes_nothing
case $(cat "$room/said") in
"kelubashi check: $given: the library's verdicts are refused (26): "*"; "*) ;;
*) fail "$asked: it says '$(cat "$room/said")'" ;;
esac
fault 1 'accepts none' check "$given"
printf 'row %d: not accepted, though it is our own answer word for word: the library contradicts itself: install it anew\n' 0 1 >"$room/lines"
echo "$given: rows 2: accepted 0, not accepted 2" >>"$room/lines"
writes "$room/lines"
says ''
cat "$given" >"$room/fifo" &
kelubashi 0 check "$room/fifo"
wait
shows "$room/fifo: rows 2: accepted 2, not accepted 0"

# ---- rows: what the second program answers, byte by byte.

# The rows of the element file $1 are those of the second program, and accepted.
answered() {
    second_rows <"$1" >"$room/expected"
    kelubashi 0 rows -q "$1" -o "$room/out/file"
    says ''
    new_is_whole "$room/expected"
    kelubashi 0 rows -q "$1"
    writes "$room/expected"
    says ''
    cp "$room/expected" "$given"
    judged "$2"
}
listing() {
    printf '%s\n' "$1" | tr ';' '\n' >"$room/listing"
    kelubashi 0 elements -q --any-bits "$room/listing" -o "$2"
}
listing 'centre 0;state 0 0 1 0 0 0 0 0;request 0 1;request 0 -1;request 0 0;request 0 -0' "$room/p10"
kelubashi 0 rows "$room/p10" -o "$room/out/file"
writes_nothing
says "kelubashi rows: $room/p10: requests 4 from number 0 on, refused 0: the file of 4 rows is written to $room/out/file"
rows "$room/expected" "$p10" "$p11" "$still" "$still_below"
new_is_whole "$room/expected"
kelubashi 0 rows "$room/p10"
writes "$room/expected"
says "kelubashi rows: $room/p10: requests 4 from number 0 on, refused 0: the file of 4 rows is written to standard output"
for words in "-q -o $room/out/file $room/p10" "-qo$room/out/file --from 0 -- $room/p10" "$room/p10 --from 0 -o $room/out/file -q"; do
    # shellcheck disable=SC2086 # a list of words
    kelubashi 0 rows $words
    says ''
    new_is_whole "$room/expected"
done
answered "$room/p10" 4
listing 'centre 1' "$room/bare"
answered "$room/bare" 0
answered "$room/full" 400

# Whose centre, state and epoch: every figure comes from another record; and a year of a low orbit, off which whole revolutions come.
listing 'centre 398600.4418;centre 4902.8001;state 1 50 1800 10 20 0.1 1.6 0.2;state 0 -7.5 1131.340 -2282.343 6672.423 -5.64305 4.30333 2.42879;request 1 592.5;request 0 0.1;request 1 31557600;request 0 -31557600.25' "$room/several"
answered "$room/several" 4
(sleep 0.3 && head -c 50 "$room/several" && sleep 0.2 && tail -c +51 "$room/several") >"$room/fifo" &
kelubashi 0 rows -q "$room/fifo"
wait
writes "$room/expected"

# A refused request has no row, and is told, also with -q.
lines="kelubashi rows: $example: request 13, of state 5: refused (3): the position is the centre's, or so near that its square is zero; check x, y and z: they are seen from the centre, in km
kelubashi rows: $example: request 14, of state 0: refused (6): a trial point lies beyond what doubles hold; check the units, then go there in several shorter intervals"
second_rows <$example >"$room/expected"
[ "$(wc -c <"$room/expected")" -eq $((8 + 144 * 13)) ] || fail "the second program does not give 13 rows of $example"
kelubashi 1 rows $example -o "$room/out/file"
says "$lines
kelubashi rows: $example: requests 15 from number 0 on, refused 2: the file of 13 rows is written to $room/out/file"
new_is_whole "$room/expected"
kelubashi 1 rows -q $example
writes "$room/expected"
says "$lines"
cp "$room/expected" "$given"
judged 13
kelubashi 1 rows -q $example --from 14 -o "$room/out/file"
bytes $zero >"$room/expected"
new_is_whole "$room/expected"
listing 'centre 1;state 0 0 1 0 0 nan 0 0;request 0 1' "$room/bad"
kelubashi 1 rows -q "$room/bad" -o "$room/out/file"
says "kelubashi rows: $room/bad: request 0, of state 0: at byte 72, vx of state 0: refused (35): vx is infinite or a NaN; look at how vx came about; in an element file it is the state's"
new_is_whole "$room/expected"
listing "centre 1;state 0 0 0 0 0 0 0 0;$(yes 'request 0 1' | head -n 400 | tr '\n' ';')" "$room/centre"
kelubashi 1 rows -q "$room/centre" -o "$room/out/file"
[ "$(grep -c ': request [0-9]*, of state 0: refused (3): ' "$room/said")" -eq 400 ] || fail "$asked: it does not say each of 400 refused requests"
new_is_whole "$room/expected"

# ---- rows: more requests than a file holds.

{ printf 'centre 398600.4418\nstate 0 0 1131.340 -2282.343 6672.423 -5.64305 4.30333 2.42879\n' &&
    awk 'BEGIN { for (i = 0; i < 1500; i++) print "request 0", i }'; } >"$room/many.txt"
kelubashi 0 elements -q "$room/many.txt" -o "$room/many"

# From request $1 on there are $2 in the file and $3 left over.
part() {
    second_rows "$1" <"$room/many" >"$room/expected"
    [ "$(wc -c <"$room/expected")" -eq $((8 + 144 * $2)) ] || fail "the second program does not give $2 rows from $1 on"
    done="kelubashi rows: $room/many: requests $2 from number $1 on, refused 0: the file of $2 rows is written to"
    left="kelubashi rows: $room/many: requests left over: $3: a file holds 400 rows: make the next with: kelubashi rows --from $(($1 + 400)) $room/many"
    amiss=1 into=" -o $room/out/file.$(($1 + 400))"
    [ "$3" -ne 0 ] || amiss=0 left='' into=''
    kelubashi $amiss rows "$room/many" --from "$1"
    writes "$room/expected"
    says "$done standard output${left:+
$left}"
    kelubashi $amiss rows "$room/many" --from "$1" -q -o "$room/out/file"
    says "$left$into"
    new_is_whole "$room/expected"
}
part 0 400 1100
part 1 400 1099
part 400 400 700
part 1099 400 1
part 1100 400 0
part 1101 399 0
part 1200 300 0
part 1499 1 0

# The example of kelubashi-rows.1.
kelubashi 1 rows "$room/many" -o "$room/out/file"
page kelubashi-rows.1 | sed -n '/^kelubashi rows: /,/^\.EE/p' | sed "\$d; s|today\.elements|$room/many|g; s|today\.rows|$room/out/file|g" >"$room/page"
diff "$room/page" "$room/said" || fail 'the example of kelubashi-rows.1, marked <, is not what rows says of it'
cp "$room/kept" "$room/out/file"

# The very command, as a shell takes it, until none is left; the names tell the first request.
mkdir "$room/it's a day"
cp "$room/many" "$room/it's a day/\$1.elements"
kelubashi 1 rows -q "$room/it's a day/\$1.elements" -o "$room/it's a day/rows"
for from in 400 800 1200; do
    next=$(sed -n 's/.*: requests left over: .*: make the next with: kelubashi //p' "$room/said")
    [ -n "$next" ] || fail "$asked: it does not say how to go on"
    eval "kelubashi $((from < 1200)) $next -q"
    second_rows $from <"$room/many" >"$room/expected"
    cmp -s "$room/expected" "$room/it's a day/rows.$from" || fail "$asked: the file from $from on is not rows.$from"
done
says ''
[ "$(find "$room/it's a day" -type f | wc -l)" -eq 5 ] || fail "the commands leave other files: $(ls "$room/it's a day")"

# An element file whose name begins with a minus: the command is run in its folder.
cp "$room/many" "$room/-many"
enter "$room"
kelubashi 1 rows -q -o minus -- -many
says 'kelubashi rows: -many: requests left over: 1100: a file holds 400 rows: make the next with: kelubashi rows --from 400 ./-many -o minus.400'
leave

# ---- rows: not done, and faults.

usage='see kelubashi rows --help'
unread "kelubashi rows: 1 of 1 words are missing: usage: kelubashi rows ELEMENTS [-o ROWS]" rows
unread "kelubashi rows: 'b' is one word too many: usage: kelubashi rows ELEMENTS [-o ROWS]" rows a b
unread "kelubashi rows: -o is given twice: $usage" rows a -o b -o c
unread "kelubashi rows: --any-bits is no option of it: $usage" rows --any-bits a
unread "kelubashi rows: --from=1 is no option of it: $usage" rows a --from=1
unread "kelubashi rows: --from needs a number behind it: $usage" rows a --from
unread "kelubashi rows: --from is given twice: $usage" rows a --from 1 --from 2
unread "kelubashi results: --from is no option of it: see kelubashi results --help" results a --from 1
for word in x -1 +1 1.0 0x1 '' ' 1' 1km; do
    unread "kelubashi rows: '$word' is no number of a record: those are 0, 1, 2 .., and have no sign: $usage" rows "$room/many" --from "$word"
done
unread "kelubashi rows: '18446744073709551616' is out of the range of numbers: $usage" rows "$room/many" --from 18446744073709551616
for from in 1500 1501 18446744073709551615; do
    unread "kelubashi rows: $room/many: has no request $from: it has 1500, numbered from 0: give --from a number below that, or leave it out" rows "$room/many" --from $from -o "$room/out/file"
    old_is_whole
done
unread "kelubashi rows: $room/bare: has no request 1: it has 0, numbered from 0: give --from a number below that, or leave it out" rows "$room/bare" --from 1
kelubashi 0 rows -q "$room/bare" --from 0
bytes $zero >"$room/expected"
writes "$room/expected"
unread "kelubashi rows: $room/missing: cannot be read: No such file or directory: correct the name" rows "$room/missing" -o "$room/out/file"
unread "kelubashi rows: $room: cannot be read: Is a directory: name a file and not a folder" rows "$room" -o "$room/out/file"

# A refused element file has no rows, and nothing is written: by $1 at byte $2; $3 is -q or nothing.
torn_elements() {
    # shellcheck disable=SC2086 # a list of words
    kelubashi 2 rows ${3:-} "$room/torn" -o "$room/out/file"
    writes_nothing
    case $(cat "$room/said") in
    "kelubashi rows: $room/torn: at byte $2: refused ($1): "*"; "*) ;;
    *) fail "$asked: it says '$(cat "$room/said")' and not that $1 refuses it at byte $2" ;;
    esac
    old_is_whole
}
: >"$room/torn"
torn_elements 21 '0, the edition'
torn_elements 21 '0, the edition' -q
head -c 119 "$room/bad" >"$room/torn"
torn_elements 21 '112, the time of request 0'
cp "$given" "$room/torn"
torn_elements 22 '0, the edition'
{ cat "$room/bad" && printf x; } >"$room/torn"
torn_elements 25 '120, behind the last section'

unwritable rows "$room/p10"
limited 1 rows -q "$room/full" -o "$room/out/file"
old_is_whole
unwritten 'kelubashi rows' rows -q "$room/full"
survives rows "$room/full" "$room/full.rows"

echo "command: $name: check and rows: $cases calls, each with its exit status and its lines"
