#!/bin/sh
# kelubashi compare, for each exit status and each line, run as tests/command/subcommands.sh is. The files are made of words, and what is shown of them is worked
# out by hand: distances are counted on the line of doubles, where one's word and the next differ by 1.
set -eu
cd "$(dirname "$0")/../.."
. tests/command/calls.sh

# ---- Result files made of words, and what is held of what is shown.

edition=0000000000000001

# The file $1 of these rows, each a list of eleven words.
results() {
    made=$1
    shift
    # shellcheck disable=SC2048,SC2086 # lists of words
    bytes $edition "$(printf %016x $#)" $* >"$made"
}

# A row with 21 points, whose nine figures are 1.
row="$zero 0000000000000015 $one $one $one $one $one $one $one $one $one"
two=4000000000000000 most=7fefffffffffffff minus_most=ffefffffffffffff minus_least=8000000000000001
old=$room/old new=$room/new given=$room/given

# It writes these lines, whole.
prints() {
    diff "$room/wrote" "$1" >"$room/differ" || fail "$asked: it shows what is marked <, and not what is marked >: $(cat "$room/differ")"
    says ''
}

# Of old and new nothing moved: one line, which begins with the name and goes on so; with -q none.
stands() {
    kelubashi 0 compare -q "$old" "$new"
    writes_nothing
    says ''
    echo "$new: $1" >"$room/lines"
    kelubashi 0 compare "$old" "$new"
    prints "$room/lines"
}

# Something moved: both names, then the lines of standard input, then a line as above, which -q leaves out.
moves() {
    { printf 'reference  %s\nresults    %s\n' "$old" "$new" && cat; } >"$room/moved"
    kelubashi 1 compare -q "$old" "$new"
    prints "$room/moved"
    { cat "$room/moved" && printf '\n%s: %s\n' "$new" "$1"; } >"$room/lines"
    kelubashi 1 compare "$old" "$new"
    prints "$room/lines"
}

# The same with --all; $1 is the status.
shows_all() {
    { printf 'reference  %s\nresults    %s\n' "$old" "$new" && cat && printf '\n%s: %s\n' "$new" "$2"; } >"$room/lines"
    kelubashi "$1" compare --all "$old" "$new"
    prints "$room/lines"
}

# The heading of the figures; that of one: row, name, distance, difference with its unit, both values; and of one that is not finite on a side.
figures() {
    printf '\n row  figure          last places             difference                 reference                   results\n'
}
figure() {
    printf '%4s  %-6s %20s  %21s  %24s  %24s\n' "$1" "$2" "$3" "$4 $5" "$6" "$7"
}
no_figure() {
    printf '%4s  %-6s          no distance             not finite  %24s  %24s\n' "$1" "$2" "$3" "$4"
}

# The headings of the refused rows, and one of these: row, side, number and words.
one_side() {
    printf '\n row  refused on one side alone\n'
}
two_numbers() {
    printf '\n row  refused on both sides, with two numbers\n'
}
one_number() {
    printf '\n row  refused on both sides, with one number\n'
}
refusal() {
    printf '%4s  %-9s  refused %s\n' "$1" "$2" "$3"
}
by3="(3): the position is the centre's, or so near that its square is zero" by5='(5): 41 trial points of growing size do not reach the interval'
by6='(6): a trial point lies beyond what doubles hold' by38='(38): tau is infinite or a NaN'
unknown='a number that this edition does not have'

# The end of the last line, by how many rows are refused: on one side alone, with two numbers, with one.
refused() {
    echo "refused on one side alone $1, on both with two numbers $2, with one number $3"
}
none=$(refused 0 0 0)

# ---- Nothing moved.

results "$old"
results "$new"
stands "rows 0: moved 0, not moved 0; $none; no figure has a distance"
kelubashi 0 compare --all "$old" "$new"
prints "$room/lines"
results "$old" "$row"
results "$new" "$row"
stands "rows 1: moved 0, not moved 1; $none; largest distance 0"
kelubashi 0 compare "$old" "$old"
echo "$old: rows 1: moved 0, not moved 1; $none; largest distance 0" >"$room/lines"
prints "$room/lines"

# Points are not compared, and both zeros are one place, in every figure.
zeros=$(with "$row" "2=$zero 3=$minus_zero 4=$zero 5=$minus_zero 6=$zero 7=$minus_zero 8=$zero 9=$minus_zero 10=$zero")
other_zeros=$(with "$zeros" "1=$infinity 2=$minus_zero 3=$zero 4=$minus_zero 5=$zero 6=$minus_zero 7=$zero 8=$minus_zero 9=$zero 10=$minus_zero")
results "$old" "$row" "$zeros" "$other_zeros"
results "$new" "$(with "$row" "1=$zero")" "$other_zeros" "$zeros"
stands "rows 3: moved 0, not moved 3; $none; largest distance 0"
shows_all 0 "rows 3: moved 0, not moved 3; $none; largest distance 0" <<LINES
$(figures)
   0  nothing moved
   1  nothing moved
   2  nothing moved
LINES

# Equal bits that are not finite have no distance; where no figure has one, it is said.
not_finite=$(with "$row" "2=$infinity 3=fff0000000000000 4=$nan 5=fff8000000000000 6=7ff0000000000001 7=ffffffffffffffff 8=$infinity 9=$nan 10=$nan")
results "$old" "$not_finite"
results "$new" "$not_finite"
stands "rows 1: moved 0, not moved 1; $none; no figure has a distance"
results "$old" "$not_finite" "$(with "$not_finite" "10=$zero")"
results "$new" "$not_finite" "$(with "$not_finite" "10=$minus_zero")"
stands "rows 2: moved 0, not moved 2; $none; largest distance 0"

# Refused on both sides with one number, whatever else the rows hold.
results "$old" "$(with "$row" '0=0000000000000003')" "$row" "$(with "$not_finite" '0=0000000000000026')"
results "$new" "$(with "$not_finite" '0=0000000000000003')" "$row" "$(with "$zeros" '0=0000000000000026')"
stands "rows 3: moved 0, not moved 1; $(refused 0 0 2); largest distance 0"
shows_all 0 "rows 3: moved 0, not moved 1; $(refused 0 0 2); largest distance 0" <<LINES
$(figures)
   1  nothing moved
$(one_number)
$(refusal 0 both "$by3")
$(refusal 2 both "$by38")
LINES
results "$old" "$(with "$row" '0=0000000000000003')"
results "$new" "$(with "$zeros" '0=0000000000000003')"
stands "rows 1: moved 0, not moved 0; $(refused 0 0 1); no figure has a distance"
shows_all 0 "rows 1: moved 0, not moved 0; $(refused 0 0 1); no figure has a distance" <<LINES
$(one_number)
$(refusal 0 both "$by3")
LINES
kelubashi 0 compare -q --all "$old" "$new"
writes_nothing

# ---- Figures that moved.

# Each in turn by one place, up and down, with its name and unit.
by_one() {
    results "$old" "$row" "$row" "$row" "$row" "$row" "$row" "$row" "$row" "$row"
    results "$new" "$(with "$row" "2=$1")" "$(with "$row" "3=$1")" "$(with "$row" "4=$1")" "$(with "$row" "5=$1")" "$(with "$row" "6=$1")" \
        "$(with "$row" "7=$1")" "$(with "$row" "8=$1")" "$(with "$row" "9=$1")" "$(with "$row" "10=$1")"
    moves "rows 9: moved 9, not moved 0; $none; largest distance 1 last place: x of row 0, $2 km" <<LINES
$(figures)
$(figure 0 x 1 "$2" km 1 "$3")
$(figure 1 y 1 "$2" km 1 "$3")
$(figure 2 z 1 "$2" km 1 "$3")
$(figure 3 vx 1 "$2" km/s 1 "$3")
$(figure 4 vy 1 "$2" km/s 1 "$3")
$(figure 5 vz 1 "$2" km/s 1 "$3")
$(figure 6 ax 1 "$2" km/s^2 1 "$3")
$(figure 7 ay 1 "$2" km/s^2 1 "$3")
$(figure 8 az 1 "$2" km/s^2 1 "$3")
LINES
}
by_one $above_one +2.22e-16 1.0000000000000002
by_one $below_one -1.11e-16 0.99999999999999989

# Each alone in the largest distance too, by its name and unit.
place=2
for each in x:km y:km z:km vx:km/s vy:km/s vz:km/s ax:km/s^2 ay:km/s^2 az:km/s^2; do
    results "$old" "$row"
    results "$new" "$(with "$row" "$place=$two")"
    moves "rows 1: moved 1, not moved 0; $none; largest distance 4503599627370496 last places: ${each%:*} of row 0, +1 ${each#*:}" <<LINES
$(figures)
$(figure 0 "${each%:*}" 4503599627370496 +1 "${each#*:}" 1 2)
LINES
    place=$((place + 1))
done

# On the line of doubles: about zero, where subnormals end, across zero, and from end to end, which is farther than a double can tell.
results "$old" "$(with "$row" "2=$zero 3=$minus_zero 4=$zero 5=$minus_least 6=$least 7=000fffffffffffff 8=$most 9=$minus_most 10=$most")" \
    "$(with "$row" "2=$zero 3=$one 4=4024000000000000 8=$zero")"
results "$new" "$(with "$row" "2=$least 3=$least 4=$minus_least 5=$least 6=$minus_least 7=0010000000000000 8=$minus_most 9=$most 10=$zero")" \
    "$(with "$row" "2=$minus_zero 3=$minus_one 4=4059000000000000 8=$most")"
moves "rows 2: moved 2, not moved 0; $none; largest distance 18437736874454810622 last places: ax of row 0, over 1.79e+308 km/s^2" <<LINES
$(figures)
$(figure 0 x 1 +4.94e-324 km 0 4.9406564584124654e-324)
$(figure 0 y 1 +4.94e-324 km -0 4.9406564584124654e-324)
$(figure 0 z 1 -4.94e-324 km 0 -4.9406564584124654e-324)
$(figure 0 vx 2 +9.88e-324 km/s -4.9406564584124654e-324 4.9406564584124654e-324)
$(figure 0 vy 2 -9.88e-324 km/s 4.9406564584124654e-324 -4.9406564584124654e-324)
$(figure 0 vz 1 +4.94e-324 km/s 2.2250738585072009e-308 2.2250738585072014e-308)
$(figure 0 ax 18437736874454810622 'over 1.79e+308' km/s^2 1.7976931348623157e+308 -1.7976931348623157e+308)
$(figure 0 ay 18437736874454810622 'over 1.79e+308' km/s^2 -1.7976931348623157e+308 1.7976931348623157e+308)
$(figure 0 az 9218868437227405311 -1.8e+308 km/s^2 1.7976931348623157e+308 0)
$(figure 1 y 9214364837600034816 -2 km 1 -1)
$(figure 1 z 14918173765664768 +90 km 10 100)
$(figure 1 ax 9218868437227405311 +1.8e+308 km/s^2 0 1.7976931348623157e+308)
LINES

# Of those that are as large, the largest is the first; one that is larger behind it takes its place.
results "$old" "$row" "$row" "$row"
results "$new" "$row" "$(with "$row" "5=3ff0000000000007 8=3ff0000000000007")" "$(with "$row" "2=3ff0000000000007")"
moves "rows 3: moved 2, not moved 1; $none; largest distance 7 last places: vx of row 1, +1.55e-15 km/s" <<LINES
$(figures)
$(figure 1 vx 7 +1.55e-15 km/s 1 1.0000000000000016)
$(figure 1 ax 7 +1.55e-15 km/s^2 1 1.0000000000000016)
$(figure 2 x 7 +1.55e-15 km 1 1.0000000000000016)
LINES
results "$new" "$(with "$row" "5=3ff0000000000007")" "$row" "$(with "$row" "10=3ff0000000000008")"
moves "rows 3: moved 2, not moved 1; $none; largest distance 8 last places: az of row 2, +1.78e-15 km/s^2" <<LINES
$(figures)
$(figure 0 vx 7 +1.55e-15 km/s 1 1.0000000000000016)
$(figure 2 az 8 +1.78e-15 km/s^2 1 1.0000000000000018)
LINES
shows_all 1 "rows 3: moved 2, not moved 1; $none; largest distance 8 last places: az of row 2, +1.78e-15 km/s^2" <<LINES
$(figures)
$(figure 0 vx 7 +1.55e-15 km/s 1 1.0000000000000016)
   1  nothing moved
$(figure 2 az 8 +1.78e-15 km/s^2 1 1.0000000000000018)
LINES
grep -v 'nothing moved' "$room/lines" | sed '/^$/{N;/: rows /d;}' >"$room/moved"
kelubashi 1 compare --all -q "$old" "$new"
prints "$room/moved"

# A figure that is not finite on a side, and has other bits on the other: no distance; NaNs differ by their words, which are shown.
results "$old" "$(with "$row" "2=$infinity 3=$one 4=$infinity 5=$nan 6=$one 7=$nan 8=$nan 9=7ff0000000000001 10=$one")" "$row" \
    "$(with "$row" "2=$infinity 3=$nan")" "$(with "$not_finite" "3=$one")"
results "$new" "$(with "$row" "2=$one 3=fff0000000000000 4=fff0000000000000 5=$one 6=fff8000000000001 7=7ff8000000000001 8=fff8000000000000 9=$infinity 10=$one")" "$row" \
    "$(with "$row" "2=$infinity 3=$nan 6=$above_one 9=ffffffffffffffff")" "$(with "$not_finite" "3=$one")"
moves "rows 4: moved 2 (not finite 2), not moved 2; $none; largest distance 1 last place: vy of row 2, +2.22e-16 km/s" <<LINES
$(figures)
$(no_figure 0 x inf 1)
$(no_figure 0 y 1 -inf)
$(no_figure 0 z inf -inf)
$(no_figure 0 vx 'nan 7FF8000000000000' 1)
$(no_figure 0 vy 1 'nan FFF8000000000001')
$(no_figure 0 vz 'nan 7FF8000000000000' 'nan 7FF8000000000001')
$(no_figure 0 ax 'nan 7FF8000000000000' 'nan FFF8000000000000')
$(no_figure 0 ay 'nan 7FF0000000000001' inf)
$(figure 2 vy 1 +2.22e-16 km/s 1 1.0000000000000002)
$(no_figure 2 ay 1 'nan FFFFFFFFFFFFFFFF')
LINES

# Where one moved that has no distance, and none that has one; and where no figure has one.
results "$old" "$row"
results "$new" "$(with "$row" "4=$nan")"
moves "rows 1: moved 1 (not finite 1), not moved 0; $none; largest distance 0" <<LINES
$(figures)
$(no_figure 0 z 1 'nan 7FF8000000000000')
LINES
results "$old" "$not_finite" "$(with "$row" '0=0000000000000005')"
results "$new" "$(with "$not_finite" "2=$nan")" "$(with "$row" '0=0000000000000005')"
moves "rows 2: moved 1 (not finite 1), not moved 0; $(refused 0 0 1); no figure has a distance" <<LINES
$(figures)
$(no_figure 0 x inf 'nan 7FF8000000000000')
LINES

# ---- Refused rows, apart from those that moved: on one side alone, then with two numbers; the figures of none are looked at.

results "$old" "$(with "$zeros" '0=0000000000000003')" "$row" "$(with "$not_finite" '0=0000000000000005')" "$row" "$row" "$(with "$row" '0=0000000000000006')" \
    "$(with "$row" '0=0000000000000006')" "$(with "$row" '0=0000000000000002')" "$(with "$row" '0=ffffffffffffffff')"
results "$new" "$row" "$(with "$row" '0=0000000000000006')" "$(with "$row" '0=0000000000000006')" "$(with "$row" "3=$above_one")" "$row" "$row" \
    "$(with "$not_finite" '0=0000000000000006')" "$(with "$row" '0=0000000000000026')" "$(with "$row" '0=0100000000000000')"
sorts="rows 9: moved 1, not moved 1; $(refused 3 3 1); largest distance 1 last place: y of row 3, +2.22e-16 km"
listed() {
    figures
    figure 3 y 1 +2.22e-16 km 1 1.0000000000000002
    [ "$1" = moved ] || echo '   4  nothing moved'
    one_side
    refusal 0 reference "$by3"
    refusal 1 results "$by6"
    refusal 5 reference "$by6"
    two_numbers
    refusal 2 reference "$by5"
    refusal 2 results "$by6"
    refusal 7 reference "(2): $unknown"
    refusal 7 results "$by38"
    refusal 8 reference "(18446744073709551615): $unknown"
    refusal 8 results "(72057594037927936): $unknown"
    [ "$1" = moved ] || { one_number && refusal 6 both "$by6"; }
}
listed moved >"$room/listed"
moves "$sorts" <"$room/listed"
listed all >"$room/listed"
shows_all 1 "$sorts" <"$room/listed"
kelubashi 1 compare -q --all "$old" "$new"
prints "$room/moved"

# Each sort alone is something that moved.
results "$old" "$(with "$row" '0=0000000000000003')" "$row"
results "$new" "$row" "$row"
moves "rows 2: moved 0, not moved 1; $(refused 1 0 0); largest distance 0" <<LINES
$(one_side)
$(refusal 0 reference "$by3")
LINES
results "$old" "$row" "$row"
results "$new" "$row" "$(with "$row" '0=0000000000000026')"
moves "rows 2: moved 0, not moved 1; $(refused 1 0 0); largest distance 0" <<LINES
$(one_side)
$(refusal 1 results "$by38")
LINES
results "$old" "$(with "$row" '0=0000000000000005')"
results "$new" "$(with "$row" '0=0000000000000006')"
moves "rows 1: moved 0, not moved 0; $(refused 0 1 0); no figure has a distance" <<LINES
$(two_numbers)
$(refusal 0 reference "$by5")
$(refusal 0 results "$by6")
LINES

# ---- Several files: a line for each.

# The heading over names of this width, and a line: name, rows that moved and of them not finite, the largest distance, its figure, row and size, rows refused
# on one side alone and with two numbers.
heading() {
    printf 'reference %s: rows %s\n\n' "$old" "$2"
    printf "%-$1s  rows moved         largest distance                                            rows refused\n" ''
    printf "%-$1s   all  not finite            last places  figure   row            in its unit   one side  two numbers\n" results
}
line() {
    printf '%s  %4s  %10s   %20s  %6s  %4s  %21s   %8s  %11s\n' "$@"
}

# The table of standard input, then the count of the files: moved in $2, in $3 nothing, $4 not compared. The status is $1, and the words are behind these.
# What is said is in $lines.
table() {
    cat >"$room/table"
    printf '\nfiles %s: something moved in %s, nothing in %s, not compared %s\n' $(($2 + $3 + $4)) "$2" "$3" "$4" >>"$room/table"
    wanted_status=$1
    shift 4
    kelubashi "$wanted_status" compare "$old" "$@"
    cp "$room/said" "$room/told"
    : >"$room/said"
    prints "$room/table"
    cp "$room/told" "$room/said"
    says "$lines"
}
lines=''

mkdir "$room/s"
results "$old" "$row" "$row" "$(with "$row" '0=0000000000000005')"
results "$room/s/a" "$row" "$row" "$(with "$row" '0=0000000000000005')"
results "$room/s/moved" "$row" "$(with "$row" "6=3ff0000000000003 9=$above_one")" "$(with "$row" '0=0000000000000005')"
results "$room/s/nan" "$(with "$row" "2=$nan 3=$above_one 4=$infinity")" "$row" "$(with "$row" '0=0000000000000005')"
results "$room/s/only" "$row" "$(with "$row" "4=$nan")" "$(with "$row" '0=0000000000000005')"
results "$room/s/one" "$(with "$row" '0=0000000000000003')" "$row" "$row"
results "$room/s/two" "$(with "$row" "8=$minus_one")" "$(with "$row" "7=$above_one")" "$(with "$row" '0=0000000000000006')"
results "$room/s/none" "$(with "$row" '0=0000000000000003')" "$(with "$row" '0=0000000000000003')" "$(with "$row" '0=0000000000000005')"
short=${#room}
width=$((short + 8))    # /s/moved
{
    heading $width 3
    line "$room/s/moved" 1 0 3 vy 1 '+6.66e-16 km/s' 0 0
    line "$room/s/a    " 0 0 0 - - - 0 0
    line "$room/s/nan  " 1 1 1 y 0 '+2.22e-16 km' 0 0
    line "$room/s/only " 1 1 0 - - - 0 0
    line "$room/s/one  " 0 0 0 - - - 2 0
    line "$room/s/two  " 2 0 9214364837600034816 ax 0 '-2 km/s^2' 0 1
    line "$room/s/none " 0 0 - - - - 2 0
    line "$room/s/a    " 0 0 0 - - - 0 0
} >"$room/several"
table 1 6 2 0 "$room/s/moved" "$room/s/a" "$room/s/nan" "$room/s/only" "$room/s/one" "$room/s/two" "$room/s/none" "$room/s/a" <"$room/several"

# With -q those in which nothing moved have no line, and the count is left out.
kelubashi 1 compare "$old" "$room/s/moved" "$room/s/a" "$room/s/nan" -q "$room/s/only" "$room/s/one" "$room/s/two" "$room/s/none" "$room/s/a"
grep -v '/s/a ' "$room/several" >"$room/lines"
prints "$room/lines"
{ heading $((short + 4)) 3 && line "$room/s/a" 0 0 0 - - - 0 0 && line "$room/s/a" 0 0 0 - - - 0 0; } >"$room/several"
table 0 0 2 0 "$room/s/a" "$room/s/a" <"$room/several"
kelubashi 0 compare -q "$old" "$room/s/a" "$room/s/a"
writes_nothing
says ''

# Each sort of what moved makes the status of several files 1.
for each in moved only one two; do
    kelubashi 1 compare -q "$old" "$room/s/a" "$room/s/$each"
    kelubashi 1 compare -q "$old" "$room/s/$each" "$room/s/a"
done

# The widest figures; a name shorter than its heading, one with spaces, and one with letters of two and three bytes, which take one column each.
enter "$room/s"
mine_old=$old old=../old
results "$old" "$(with "$row" "10=$most")"
results a "$(with "$row" "10=$minus_most")"
cp a 'it is so'
cp a "$(printf 'm\303\266ved\342\202\254')"
{
    heading 8 1
    line 'a       ' 1 0 18437736874454810622 az 0 'over 1.79e+308 km/s^2' 0 0
    line 'it is so' 1 0 18437736874454810622 az 0 'over 1.79e+308 km/s^2' 0 0
    line "$(printf 'm\303\266ved\342\202\254  ')" 1 0 18437736874454810622 az 0 'over 1.79e+308 km/s^2' 0 0
} >"$room/several"
table 1 3 0 0 a 'it is so' "$(printf 'm\303\266ved\342\202\254')" <"$room/several"
{ heading 7 1 && line 'a      ' 1 0 18437736874454810622 az 0 'over 1.79e+308 km/s^2' 0 0 && line '../old ' 0 0 0 - - - 0 0; } >"$room/several"
table 1 1 1 0 a ../old <"$room/several"
cp a ./-a
kelubashi 1 compare -q -- ../old -a
cp ../old 'a reference with a long name'
old='a reference with a long name'
{ heading 7 1 && line 'a      ' 1 0 18437736874454810622 az 0 'over 1.79e+308 km/s^2' 0 0 && line '../old ' 0 0 0 - - - 0 0; } >"$room/several"
table 1 1 1 0 a ../old <"$room/several"
leave
old=$mine_old

# ---- Files that are refused, with the byte, and whose word that is; the reference once, before any other is looked at.

results "$old" "$row" "$row"
results "$room/same" "$row" "$row"
results "$room/moved" "$row" "$(with "$row" "2=$above_one")"

# The given file is told by the line $1, as the reference, and as the only one to compare.
untold() {
    lines="kelubashi compare: $given: $1"
    unread "$lines" compare "$given" "$old"
    unread "$lines" compare "$old" "$given"
}

# The same, with options; as the reference before others that cannot be read; and as one of several, of which the others are compared.
untold_everywhere() {
    untold "$1"
    unread "$lines" compare --all "$old" "$given" -q
    unread "$lines" compare "$given" "$room/missing" "$old" "$given" "$room/missing"
    {
        heading $((short + 6)) 2
        line "$room/same " 0 0 0 - - - 0 0
        echo "$given  not compared"
        line "$room/moved" 1 0 1 x 1 '+2.22e-16 km' 0 0
    } >"$room/several"
    table 2 1 1 1 "$room/same" "$given" "$room/moved" <"$room/several"
    kelubashi 2 compare -q "$old" "$given" "$room/same" "$room/moved"
    says "$lines"
    : >"$room/said"
    { heading $((short + 6)) 2 && echo "$given  not compared" && line "$room/moved" 1 0 1 x 1 '+2.22e-16 km' 0 0; } >"$room/lines"
    prints "$room/lines"
}
ends='refused (21): the file ends before a word that is needed, or in it; fetch the file again, or correct a count that is too large'
edition_bad='refused (22): the edition is not 1; look whether it is an element or a result file; if so, use the library of its edition'
count_bad='refused (23): more than 16 centres, 500 states, 1,500 requests, 1,500 rows of results or 400 rows to check; correct the count, or divide the records over several files'
left='refused (25): bytes are left after the last section or row; cut the file there, or correct a count that is too small'

# Every word of the second row, the edition and the count: not there, and a byte short.
place=104
for word in 'the refusal' 'the count of points' x y z vx vy vz ax ay az; do
    for more in 0 7; do
        head -c $((place + more)) "$old" >"$given"
        untold "at byte $place, $word of row 1: $ends"
    done
    place=$((place + 8))
done
head -c 16 "$old" >"$given"
untold_everywhere "at byte 16, the refusal of row 0: $ends"
for length in 0 7 8 15; do
    head -c $length "$old" >"$given"
    case $length in
    0 | 7) untold_everywhere "at byte 0, the edition: $ends" ;;
    *) untold_everywhere "at byte 8, the count of rows: $ends" ;;
    esac
done

# Other editions, alone and with a file behind them; counts above 1,500; bytes behind the last row.
for word in 0000000000000000 0000000000000002 0100000000000000 0000000100000001 ffffffffffffffff; do
    bytes $word >"$given"
    untold "at byte 0, the edition: $edition_bad"
    { bytes $word && tail -c +9 "$old"; } >"$given"
    untold_everywhere "at byte 0, the edition: $edition_bad"
done
for word in 00000000000005dd ffffffffffffffff 8000000000000002 0000000100000002; do
    bytes $edition $word >"$given"
    untold "at byte 8, the count of rows: $count_bad"
    { bytes $edition $word && tail -c +17 "$old"; } >"$given"
    untold_everywhere "at byte 8, the count of rows: $count_bad"
done
for more in 1 8 88; do
    { cat "$old" && head -c $more /dev/zero; } >"$given"
    untold "at byte 192, behind the last row: $left"
done
{ bytes $edition 0000000000000001 && tail -c +17 "$old"; } >"$given"
untold_everywhere "at byte 104, behind the last row: $left"

# No rows, and bytes behind them that are no number of a refused element file: too few, too many, or a 0.
for words in "$zero" "$least $least" "$zero $least"; do
    # shellcheck disable=SC2086 # a list of words
    bytes $edition $zero $words >"$given"
    untold "at byte 16, behind the last row: $left"
done
{ bytes $edition $zero && head -c 7 "$old"; } >"$given"
untold "at byte 16, behind the last row: $left"
{ bytes $edition $zero 0000000000000015 && printf x; } >"$given"
untold "at byte 16, behind the last row: $left"

# 24 bytes that are no result file of a refused element file: a row's first word, and another edition.
bytes $edition 0000000000000001 0000000000000015 >"$given"
untold "at byte 24, the count of points of row 0: $ends"
bytes 0000000000000002 $zero 0000000000000015 >"$given"
untold "at byte 0, the edition: $edition_bad"

# The three words of a refused element file: its number in words, and no advice to cut it.
for each in '15:21): the file ends before a word that is needed, or in it' '16:22): the edition is not 1' "18:24): a state's centre, or a request's state, is not there" \
    '19:25): bytes are left after the last section or row' "02:2): $unknown"; do
    bytes $edition $zero "00000000000000${each%%:*}" >"$given"
    untold_everywhere "has no rows to compare: it is the result file of an element file that is refused (${each#*:}; correct the element file, as kelubashi read tells it, and make the results anew with kelubashi results"
done
cp "$given" "$room/refused"
unread "kelubashi compare: $given: has no rows to compare: it is the result file of an element file that is refused (2): $unknown; correct the element file, as kelubashi read tells it, and make the results anew with kelubashi results" compare "$given" "$room/refused"
head -c 60 examples/orbits.elements >"$room/short"
kelubashi 1 results -q "$room/short" -o "$given"
[ "$(wc -c <"$given")" -eq 24 ] || fail 'the result file of a refused element file does not have 24 bytes'
untold "has no rows to compare: it is the result file of an element file that is refused (21): the file ends before a word that is needed, or in it; correct the element file, as kelubashi read tells it, and make the results anew with kelubashi results"

# 51: both counts and both names; of both files at fault the reference is told.
counts='refused (51): the two result files do not have the same number of rows; compare the results of one element file, and look at which file each was made of'
results "$room/fewer" "$row"
results "$room/bare"
results "$room/more" "$row" "$row" "$row"
for each in fewer:1 bare:0 more:3; do
    other=$room/${each%:*}
    unread "kelubashi compare: $other: it has ${each#*:} rows, and $old 2: $counts" compare "$old" "$other"
    unread "kelubashi compare: $old: it has 2 rows, and $other ${each#*:}: $counts" compare "$other" "$old"
done
lines="kelubashi compare: $room/fewer: it has 1 rows, and $old 2: $counts
kelubashi compare: $room/missing: cannot be read: No such file or directory: correct the name
kelubashi compare: $room: cannot be read: Is a directory: name a file and not a folder
kelubashi compare: $room/more: it has 3 rows, and $old 2: $counts"
{
    heading $((short + 8)) 2
    line "$room/moved  " 1 0 1 x 1 '+2.22e-16 km' 0 0
    echo "$room/fewer    not compared"
    echo "$room/missing  not compared"
    line "$room/same   " 0 0 0 - - - 0 0
    echo "$room          not compared"
    echo "$room/more     not compared"
} >"$room/several"
table 2 1 1 4 "$room/moved" "$room/fewer" "$room/missing" "$room/same" "$room" "$room/more" <"$room/several"
lines="kelubashi compare: $room/missing: cannot be read: No such file or directory: correct the name
kelubashi compare: $room/missing: cannot be read: No such file or directory: correct the name"
{ heading $((short + 8)) 2 && echo "$room/missing  not compared" && echo "$room/missing  not compared"; } >"$room/several"
table 2 0 0 2 "$room/missing" "$room/missing" <"$room/several"
lines=''
printf x >"$given"
head -c 8 "$old" >"$room/torn"
unread "kelubashi compare: $given: at byte 0, the edition: $ends" compare "$given" "$room/torn"
unread "kelubashi compare: $room/torn: at byte 8, the count of rows: $ends" compare "$room/torn" "$room/refused"

# ---- The fullest files: 1,500 rows, each with one figure that moved by as many places as its number and one.

# shellcheck disable=SC2046 # lists of words
{
    bytes $edition 00000000000005dc
    bytes $(awk -v row="$row" 'BEGIN { for (i = 0; i < 1500; i++) print row }')
} >"$old"
# shellcheck disable=SC2046 # lists of words
{
    bytes $edition 00000000000005dc
    bytes $(awk -v row="$row" 'BEGIN { for (i = 0; i < 1500; i++) { split(row, word, " "); word[3 + i % 9] = sprintf("3ff0000000000%03x", i + 1)
        for (j = 1; j <= 11; j++) print word[j] } }')
} >"$new"
[ "$(wc -c <"$new")" -eq 132016 ] || fail 'the fullest file does not have 132,016 bytes'
{
    figures
    awk 'BEGIN {
        split("x y z vx vy vz ax ay az", name, " ")
        split("km km/s km/s^2", unit, " ")
        place = 1
        for (i = 0; i < 52; i++) place /= 2
        for (i = 0; i < 1500; i++)
            printf "%4d  %-6s %20d  %21s  %24s  %24.17g\n", i, name[1 + i % 9], i + 1, sprintf("%+.3g %s", (i + 1) * place, unit[1 + int(i % 9 / 3)]), 1, 1 + (i + 1) * place
    }'
} >"$room/listed"
moves "rows 1500: moved 1500, not moved 0; $none; largest distance 1500 last places: vz of row 1499, +3.33e-13 km/s" <"$room/listed"
cp "$old" "$room/full"
cp "$new" "$room/full_moved"
kelubashi 0 compare -q "$room/full" "$old"
{ heading $((short + 4)) 1500 && line "$new" 1500 0 1500 vz 1499 '+3.33e-13 km/s' 0 0 && line "$old" 0 0 0 - - - 0 0; } >"$room/several"
table 1 1 1 0 "$new" "$old" <"$room/several"

# A byte short, and longer by a byte and by many: no more is read than the longest file has, and a byte.
for each in '132015:at byte 132008, az of row 1499' '132008:at byte 132008, az of row 1499' '132007:at byte 132000, ay of row 1499'; do
    head -c "${each%%:*}" "$room/full" >"$given"
    unread "kelubashi compare: $given: ${each#*:}: $ends" compare "$given" "$old"
    unread "kelubashi compare: $given: ${each#*:}: $ends" compare "$old" "$given"
done
for more in 1 300000; do
    { cat "$room/full" && head -c $more /dev/zero; } >"$given"
    unread "kelubashi compare: $given: at byte 132016, behind the last row: $left" compare "$given" "$old"
    unread "kelubashi compare: $given: at byte 132016, behind the last row: $left" compare "$old" "$given"
done
{ bytes $edition 00000000000005dd && tail -c +17 "$room/full" && tail -c 88 "$room/full"; } >"$given"
unread "kelubashi compare: $given: at byte 8, the count of rows: $count_bad" compare "$old" "$given"
unread "kelubashi compare: /dev/zero: at byte 0, the edition: $edition_bad" compare /dev/zero "$old"
unread "kelubashi compare: /dev/null: at byte 0, the edition: $ends" compare "$old" /dev/null

# All nine of each row: 13,500 lines, which are more than a mebibyte.
# shellcheck disable=SC2046 # lists of words
{
    bytes $edition 00000000000005dc
    bytes $(awk -v row="$(with "$row" "2=$least 3=$least 4=$least 5=$least 6=$least 7=$least 8=$least 9=$least 10=$least")" 'BEGIN { for (i = 0; i < 1500; i++) print row }')
} >"$new"
kelubashi 1 compare "$old" "$new"
[ "$(grep -cE '^ *[0-9]+  [xyzva]+ +4607182418800017407  +-1 km(/s(\^2)?)? +1 +4.9406564584124654e-324$' "$room/wrote")" -eq 13500 ] || fail "$asked: it does not show 13,500 figures"
unwritten 'kelubashi compare' compare "$old" "$new"
unwritten 'kelubashi compare' compare "$old" "$old"
unwritten 'kelubashi compare' compare "$old" "$old" "$new"
unwritten 'kelubashi compare' compare --help

# ---- A station's own results: nothing moved against the second program; and of another interval, the rows of its requests.

example=examples/orbits.elements
second <$example >"$old"
kelubashi 1 results -q $example -o "$new"
stands "rows 15: moved 0, not moved 13; $(refused 0 0 2); largest distance 0"
sed 's/^request 4 3533\.7$/request 4 3533.8/' examples/orbits.txt >"$room/listing"
kelubashi 0 elements -q "$room/listing" -o "$room/elements"
kelubashi 1 results -q "$room/elements" -o "$new"
kelubashi 1 compare -q "$old" "$new"
[ "$(sed -n '5,$s/^ *\([0-9]*\) .*/\1/p' "$room/wrote" | sort -u)" = 11 ] || fail "$asked: not row 11 alone moved: $(cat "$room/wrote")"

# The examples of kelubashi-compare.1: the results of examples/orbits.elements, some of them changed, and a file that breaks off.
set --
for number in 0 1 2 3 4 5 6 7 8 9 10 11 12 13 14; do
    set -- "$@" "$(od -An -v -t x8 -w88 -j $((16 + 88 * number)) -N 88 "$old")"
done

# The word at place $2 of the row $1, some places on: in its lower half, as a shell has no more than 63 bits.
plus() {
    word=$(echo "$1" | cut -d ' ' -f $(($2 + 2)))
    printf '%s%08x' "${word%????????}" $((0x${word#????????} + $3))
}
results "$new" "$1" "$(with "$2" "2=$(plus "$2" 2 1) 6=$(plus "$2" 6 -3)")" "$3" "$4" "$(with "$5" "3=$(plus "$5" 3 12) 8=$(plus "$5" 8 1)")" "$6" "$7" "$8" "$9" \
    "$(with "${10}" '0=0000000000000007')" "${11}" "${12}" "${13}" "${14}" "$(with "${15}" '0=0000000000000005')"
mkdir "$room/page"
for each in old:old.results old:north.results new:new.results new:south.results; do
    cp "$room/${each%:*}" "$room/page/${each#*:}"
done
head -c 240 "$old" >"$room/page/east.results"

# The page's lines from the one that begins with $1 on, up to the next that ends an example.
paged() {
    page kelubashi-compare.1 | sed -n "/^$1/,/^\.EE/p" | sed '$d' >"$room/lines"
}
enter "$room/page"
kelubashi 1 compare old.results new.results
paged 'reference  old'
prints "$room/lines"
kelubashi 2 compare old.results north.results south.results east.results
paged 'kelubashi compare: east'
says "$(cat "$room/lines")"
: >"$room/said"
paged 'reference old'
prints "$room/lines"

# The end of its script, for each status: what it echoes is the last line.
ends_with() {
    cp "$1" after.results
    # shellcheck disable=SC2016 # a program
    { echo 'kelubashi() { $command "$@"; }' && paged 'kelubashi compare -q before' && cat "$room/lines"; } >"$room/script"
    command=$command sh "$room/script" >"$room/wrote" 2>"$room/said"
    asked="the script of kelubashi-compare.1, with $1"
    tail -n 1 "$room/wrote" | grep -qF -- "$2" || fail "$asked: it ends with '$(tail -n 1 "$room/wrote")'"
    cases=$((cases + 1))
}
cp old.results before.results
ends_with old.results 'nothing moved: '
ends_with new.results 'the new library answers otherwise: '
ends_with east.results 'not compared: '
leave

# ---- Not done, and faults.

kelubashi 0 compare --help
shows 'usage: kelubashi compare REFERENCE RESULTS.. [-q]'
shows '  --all '
shows '  1  done, but something is refused, not accepted, moved or left over'
usage='see kelubashi compare --help'
unread "kelubashi compare: 2 of 2 words are missing: usage: kelubashi compare REFERENCE RESULTS.." compare
unread "kelubashi compare: 1 of 2 words are missing: usage: kelubashi compare REFERENCE RESULTS.." compare "$old" -q --all
unread "kelubashi compare: -o is no option of it: $usage" compare "$old" "$new" -o a
unread "kelubashi compare: --any-bits is no option of it: $usage" compare --any-bits "$old" "$new"
unread "kelubashi compare: --from is no option of it: $usage" compare "$old" "$new" --from 1
unread "kelubashi compare: --all=1 is no option of it: $usage" compare "$old" "$new" --all=1
unread "kelubashi check: --all is no option of it: see kelubashi check --help" check --all "$old"
unread "kelubashi show: '$new' is one word too many: usage: kelubashi show ELEMENTS RESULTS" show $example "$old" "$new"
for words in "--all $old $new $new" "$old $room/missing -q $new $new --all"; do
    named=$(($(echo "$words" | wc -w) - 2))
    [ "${words#*-q}" = "$words" ] || named=$((named - 1))
    # shellcheck disable=SC2086 # a list of words
    unread "kelubashi compare: --all shows the rows of one file, and $named are named: name one beside the reference, or leave --all out" compare $words
done
unread "kelubashi compare: $room/missing: cannot be read: No such file or directory: correct the name" compare "$room/missing" "$new"
unread "kelubashi compare: $room/missing: cannot be read: No such file or directory: correct the name" compare "$room/missing" "$room/missing" "$room/missing"
unread "kelubashi compare: $room/missing: cannot be read: No such file or directory: correct the name" compare "$old" "$room/missing"
unread "kelubashi compare: $room: cannot be read: Is a directory: name a file and not a folder" compare -q "$room" "$new"
unread "kelubashi compare: $room: cannot be read: Is a directory: name a file and not a folder" compare "$old" -q "$room"

# A FIFO is waited for, on either side.
cp "$old" "$new"
(sleep 0.3 && head -c 50 "$old" && sleep 0.2 && tail -c +51 "$old") >"$room/fifo" &
kelubashi 0 compare "$old" "$room/fifo"
wait
shows "$room/fifo: rows 15: moved 0, not moved 13; "
cat "$old" >"$room/fifo" &
kelubashi 0 compare "$room/fifo" "$new"
wait
shows "$new: rows 15: moved 0, not moved 13; "

# A machine that hands over a few bytes at a time, or fails; and a library that refuses what is sound.
fault 0 few compare "$old" "$new"
shows "$new: rows 15: moved 0, not moved 13; "
fault 2 unread compare "$old" "$new"
writes_nothing
says "kelubashi compare: $old: cannot be read: Input/output error: look at that disk or device"

# The library's trouble $1, said of $2, with these words.
troubled() {
    writes_nothing
    case $(cat "$room/said") in
    "kelubashi compare: $2: the library's comparison is refused ($1): "*"; "*) ;;
    *) fail "$asked: it says '$(cat "$room/said")', and not that the library has the trouble $1" ;;
    esac
    [ "$(wc -l <"$room/said")" -eq 1 ] || fail "$asked: it says more than a line"
}
for words in compare 'compare -q'; do
    # shellcheck disable=SC2086 # a list of words
    fault 2 'no room for rows' $words "$old" "$new"
    troubled 26 "$new"
    # shellcheck disable=SC2086 # a list of words
    fault 2 'no answer' $words "$old" "$new"
    troubled 60 "$old"
done
fault 2 'no room for rows' compare "$old" "$new" "$room/missing" "$new"
[ "$(grep -c ": the library's comparison is refused (26): " "$room/said")" -eq 2 ] || fail "$asked: it says '$(cat "$room/said")'"
[ "$(grep -c '  not compared$' "$room/wrote")" -eq 3 ] || fail "$asked: it shows $(cat "$room/wrote")"

# An unsound library, told before any file is read.
fault 3 unsound compare "$room/missing" "$new"
writes_nothing
case $(cat "$room/said") in
'kelubashi compare: the self-check failed: '*) ;;
*) fail "$asked: it says '$(cat "$room/said")'" ;;
esac
[ "$(wc -l <"$room/said")" -eq 1 ] || fail "$asked: it says more than a line"

echo "command: $name: compare: $cases calls, each with its exit status and its lines"
