#!/bin/sh
# The command, for each exit status and each line that it says: sh tests/command/subcommands.sh NAME KELUBASHI FAULTY, with the words that run the command
# and that run it with the faults of tests/command/faults.c. What it writes is held, byte by byte, to what the second program gives; after
# everything that fails, the old file has to be as it was, and nothing left beside it.
set -eu
cd "$(dirname "$0")/../.."
. tests/command/calls.sh

example=examples/orbits.elements
printf 'centre 398600.4418\nstate 0 0 1131.340 -2282.343 6672.423 -5.64305 4.30333 2.42879\nrequest 0 600\n' >"$room/good.txt"
good=$room/good.elements
refused3="refused (3): the position is the centre's, or so near that its square is zero; check x, y and z: they are seen from the centre, in km"
refused6='refused (6): a trial point lies beyond what doubles hold; check the units, then go there in several shorter intervals'

# ---- 0: all well.

kelubashi 0 elements "$room/good.txt" -o "$good"
says "kelubashi elements: $room/good.txt: centres 1, states 1, requests 1: the element file, 120 bytes, is written to $good"
second <"$good" >"$room/good.results"
kelubashi 0 results "$good"
writes "$room/good.results"
says "kelubashi results: $good: requests 1, refused 0: the results are written to standard output"
kelubashi 0 results "$good" -o "$room/out/file"
writes_nothing
says "kelubashi results: $good: requests 1, refused 0: the results are written to $room/out/file"
new_is_whole "$room/good.results"
for words in "-q -o $room/out/file $good" "-qo $room/out/file $good" "-o$room/out/file -q -- $good" "$good -o $room/out/file -q"; do
    # shellcheck disable=SC2086 # a list of words
    kelubashi 0 results $words
    says ''
    new_is_whole "$room/good.results"
done
kelubashi 0 read "$good"
shows "$good: element file of edition 1, 120 bytes: centres 1, states 1, requests 1"
shows '     0     398600.4418'
shows '     0      0           0.000       1131.340000    -2282.343000     6672.423000    -5.643050000   4.303330000   2.428790000'
shows '      0      0         600.000         600.000'
says ''
printf '%s\n' 'centre 398600.4418' 'centre -1e300' 'state 1 -0.0625 1131.340 -2282.343 6672.423 -5.64305 4.30333 2.42879' \
    'state 0 1e20 inf -0 1234567.25 0 -12345 1e-9' 'request 1 inf' 'request 0 86400.5' 'request 0 -1e15' >"$room/wide.txt"
kelubashi 0 elements -q --any-bits "$room/wide.txt" -o "$room/wide"
kelubashi 0 read "$room/wide"
cat >"$room/table" <<TABLE
$room/wide: element file of edition 1, 224 bytes: centres 2, states 2, requests 3

centre     mu km^3/s^2
     0     398600.4418
     1         -1e+300

 state centre         epoch s              x km            y km            z km         vx km/s       vy km/s       vz km/s
     0      1          -0.062       1131.340000    -2282.343000     6672.423000    -5.643050000   4.303330000   2.428790000
     1      0           1e+20               inf       -0.000000  1234567.250000     0.000000000        -12345   0.000000001

request  state          time s   after epoch s
      0      1             inf             inf
      1      0       86400.500       86400.562
      2      0          -1e+15          -1e+15
TABLE
writes "$room/table"
says ''

# The interval is the library's: one NaN, whatever a processor makes of two infinite times, or of a NaN.
printf '%s\n' 'centre 1' 'state 0 inf 1 0 0 0 0 0' 'request 0 inf' 'request 0 -nan' >"$room/not_finite.txt"
kelubashi 0 elements -q --any-bits "$room/not_finite.txt" -o "$room/not_finite"
kelubashi 0 read "$room/not_finite"
shows '      0      0             inf             nan'
shows '      1      0            -nan             nan'
second <"$room/not_finite" >"$room/not_finite.results"
kelubashi 1 show "$room/not_finite" "$room/not_finite.results"
shows '   0     0            nan   refused (38): tau is infinite or a NaN'
shows '   1     0            nan   refused (38): tau is infinite or a NaN'

kelubashi 0 read -q "$good"
writes_nothing
says ''
kelubashi 0 show "$good" "$room/good.results"
shows '   0     0            600      -2252.288038      568.287869     6765.501223    -5.264048486   4.884961878  -2.125251006     32'
says ''
kelubashi 0 show -q "$good" "$room/good.results"
writes_nothing
kelubashi 0 state 398600.4418 1131.340 -2282.343 6672.423 -5.64305 4.30333 2.42879 600
shows '  position      km          -2252.28803786836       568.287869371364       6765.50122306957'
kelubashi 0 state -q -1 1 0 0 -.5 0 0 -1e0
writes_nothing
says ''
kelubashi 0 selfcheck
shows 'the library answers as edition 1 does'
kelubashi 0 selfcheck -q
writes_nothing
kelubashi 0 --version
shows 'kelubashi, edition 1'
kelubashi 0 --help
for each in results show elements read centres check rows compare state selfcheck; do
    shows "  kelubashi $each "
done
for each in results show elements read centres check rows compare state selfcheck; do
    kelubashi 0 $each --help
    shows "usage: kelubashi $each"
    shows '  2  not done: cannot read, write, or understand the call'
    says ''
done

# A FIFO is waited for; a link is followed; the old mode is kept, and a new file has that of any file.
(sleep 0.3 && head -c 50 "$good" && sleep 0.2 && tail -c +51 "$good") >"$room/fifo" &
kelubashi 0 results -q "$room/fifo"
writes "$room/good.results"
wait
ln -s out/file "$room/link"
chmod 640 "$room/out/file"
kelubashi 0 results -q "$good" -o "$room/link"
[ -h "$room/link" ] || fail 'a symbolic link is replaced'
[ "$(stat -c %a "$room/out/file")" = 640 ] || fail 'the mode of the old file is not kept'
chmod 644 "$room/out/file"
new_is_whole "$room/good.results"
(umask 027 && kelubashi 0 results -q "$good" -o "$room/new")
[ "$(stat -c %a "$room/new")" = 640 ] || fail 'a new file does not have the mode of any new file'
cmp -s "$room/good.results" "$room/new" || fail 'a new file is not the result file'

# ---- 1: done, but something is refused.

second <$example >"$room/example.results"
lines="kelubashi results: $example: request 13, of state 5: $refused3
kelubashi results: $example: request 14, of state 0: $refused6"
kelubashi 1 results $example
writes "$room/example.results"
says "$lines
kelubashi results: $example: requests 15, refused 2: the results are written to standard output"
kelubashi 1 results -q $example -o "$room/out/file"
says "$lines"
new_is_whole "$room/example.results"
kelubashi 1 show $example "$room/example.results"
shows "  13     5            600   refused (3): the position is the centre's, or so near that its square is zero"
[ "$(wc -l <"$room/wrote")" -eq 17 ] || fail 'the table of the example does not have 17 lines'
kelubashi 1 show -q $example "$room/example.results"
[ "$(wc -l <"$room/wrote")" -eq 4 ] || fail 'the refused rows of the example are not two, with two lines above them'

# Twenty refused requests are told one by one, and how many more there are; exactly twenty without that line.
for count in 20 21 1000; do
    { echo 'centre 1' && echo 'state 0 0 0 0 0 0 0 0' && yes 'request 0 1' | head -n $count; } >"$room/many.txt"
    kelubashi 0 elements -q "$room/many.txt" -o "$room/many"
    kelubashi 1 results -q "$room/many" -o "$room/out/file"
    [ "$(grep -c "$refused3" "$room/said")" -eq 20 ] || fail "of $count refused requests not 20 are told"
    case $count in
    20) [ "$(wc -l <"$room/said")" -eq 20 ] || fail 'of 20 refused requests more is told than each' ;;
    *) [ "$(tail -n 1 "$room/said")" = "kelubashi results: $room/many: more refused requests: $((count - 20)); kelubashi show has them all" ] ||
        fail "of $count refused requests it is not told how many more there are" ;;
    esac
    second <"$room/many" >"$room/many.results"
    new_is_whole "$room/many.results"
done

# Each refusal of a state, by the second program's number.
state() {
    number=$1
    shift
    kelubashi 1 state "$@"
    writes_nothing
    case $(cat "$room/said") in
    "kelubashi state: the state is refused ($number): "*"; "*) ;;
    *) fail "$asked: it says '$(cat "$room/said")' and not that $number refuses it" ;;
    esac
}
state 31 -- -inf 1 0 0 0 0 0 1
state 32 1 nan nan 0 0 0 0 1
state 33 1 0 nan 0 0 0 0 1
state 34 1 0 0 inf 0 0 0 nan
state 35 1 0 0 0 nan 0 0 1
state 36 1 1 0 0 0 -nan 0 1
state 37 1 1 0 0 0 0 nan 1
state 38 1 1 0 0 0 0 0 inf
state 3 1 0 0 0 0 0 0 1
state 4 1 1e181 0 0 0 0 0 1
state 5 1e200 1e-100 0 0 0 0 0 1e-200
state 6 398600.4418 7000 0 0 0 7.5 0 1e300
state 7 0 -1e10 0 0 -1e10 0 0 -1000
state 8 -2 1e-150 0 0 0.001 0 0 0

# A figure that is not finite is told with the word of the file that it came from: $1 the refusal, $2 the figure, $3 where it stands, $4 whose it is,
# $5 the listing, of which request 0 is refused.
figure() {
    printf '%s\n' "$5" | tr ';' '\n' >"$room/bad.txt"
    kelubashi 0 elements -q --any-bits "$room/bad.txt" -o "$room/bad"
    second <"$room/bad" >"$room/bad.results"
    kelubashi 1 results -q "$room/bad" -o "$room/out/file"
    says "kelubashi results: $room/bad: request 0, of state 0: $3: refused ($1): $2 is infinite or a NaN; look at how $2 came about; $4"
    new_is_whole "$room/bad.results"
    kelubashi 1 show -q "$room/bad" "$room/bad.results"
    shows "   refused ($1): $2 is infinite or a NaN: $3"
}
from_centre="in an element file it is the centre's"
from_state="in an element file it is the state's"
difference="in an element file it is the request's time less the state's epoch"
figure 31 mu 'at byte 16, mu of centre 0' "$from_centre" 'centre nan;state 0 nan nan 0 0 0 0 0;request 0 1'
figure 31 mu 'at byte 24, mu of centre 1' "$from_centre" 'centre 1;centre -inf;state 1 0 1 0 0 0 0 0;state 0 0 1 0 0 0 0 0;request 0 1;request 1 1'
figure 32 x 'at byte 48, x of state 0' "$from_state" 'centre 1;state 0 0 nan inf 0 0 0 0;request 0 nan'
figure 33 y 'at byte 56, y of state 0' "$from_state" 'centre 1;state 0 0 1 nan inf 0 0 0;request 0 1'
figure 34 z 'at byte 64, z of state 0' "$from_state" 'centre 1;state 0 0 1 0 nan inf 0 0;request 0 1'
figure 35 vx 'at byte 72, vx of state 0' "$from_state" 'centre 1;state 0 0 1 0 0 -inf inf 0;request 0 1'
figure 36 vy 'at byte 80, vy of state 0' "$from_state" 'centre 1;state 0 0 1 0 0 0 nan inf;request 0 1'
figure 37 vz 'at byte 88, vz of state 0' "$from_state" 'centre 1;state 0 nan 1 0 0 0 0 nan;request 0 1'
figure 38 tau 'at byte 40, the epoch of state 0' "$difference" 'centre 1;state 0 inf 1 0 0 0 0 0;request 0 1'
figure 38 tau 'at byte 112, the time of request 0' "$difference" 'centre 1;state 0 0 1 0 0 0 0 0;request 0 nan'
figure 38 tau 'at byte 40, the epoch of state 0, and at byte 112, the time of request 0' "$difference" 'centre 1;state 0 nan 1 0 0 0 0 0;request 0 inf'
figure 38 tau 'at byte 40, the epoch of state 0, and at byte 112, the time of request 0, too far apart' "$difference" 'centre 1;state 0 -1e308 1 0 0 0 0 0;request 0 1e308'

# Each refusal of an element file: told with its byte, and in a result file of its own.
file() {
    number=$1 place=$2
    second <"$3" >"$room/expected"
    [ "$(od -An -v -t u1 -j 16 -N 1 "$room/expected" | tr -d ' ')" = "$number" ] || fail "$3 is not refused with $number by the second program"
    for words in "results -q -o $room/out/file" read "read -q" centres "centres -q"; do
        # shellcheck disable=SC2086 # a list of words
        kelubashi 1 $words "$3"
        writes_nothing
        case $(cat "$room/said") in
        "kelubashi ${words%% *}: $3: at byte $place: refused ($number): "*"; "*) ;;
        *) fail "$asked: it says '$(cat "$room/said")' and not that $number refuses it at byte $place" ;;
        esac
    done
    new_is_whole "$room/expected"
    kelubashi 1 show "$3" "$room/expected"
    grep -qF ": at byte $place: refused ($number): " "$room/said" || fail "$asked: the refusal is not told"
}
: >"$room/empty"
file 21 '0, the edition' "$room/empty"
head -c 119 "$good" >"$room/short"
file 21 '112, the time of request 0' "$room/short"
head -c 60 "$good" >"$room/half"
file 21 '56, y of state 0' "$room/half"
{ printf '\002' && tail -c +2 "$good"; } >"$room/edition2"
file 22 '0, the edition' "$room/edition2"
{ head -c 24 "$good" && printf '\365\001' && tail -c +27 "$good"; } >"$room/states501"
file 23 '24, the count of states' "$room/states501"
{ head -c 32 "$good" && printf '\001' && tail -c +34 "$good"; } >"$room/no_centre"
file 24 '32, the centre of state 0' "$room/no_centre"
{ head -c 104 "$good" && printf '\007' && tail -c +106 "$good"; } >"$room/no_state"
file 24 '104, the state of request 0' "$room/no_state"
{ cat "$good" && printf x; } >"$room/long"
file 25 '120, behind the last section' "$room/long"
head -c 200000 /dev/zero >"$room/zeros"
file 22 '0, the edition' "$room/zeros"

# ---- 2: not done. First words that are not understood.

unread "kelubashi: a subcommand is missing: see kelubashi --help"
unread "kelubashi: 'reslts' is no subcommand: see kelubashi --help" reslts
unread "kelubashi: '--help' is no subcommand: see kelubashi --help" --help all
unread "kelubashi results: 1 of 1 words are missing: usage: kelubashi results ELEMENTS [-o RESULTS]" results
unread "kelubashi results: '$example' is one word too many: usage: kelubashi results ELEMENTS [-o RESULTS]" results "$good" $example
unread "kelubashi show: 1 of 2 words are missing: usage: kelubashi show ELEMENTS RESULTS" show "$good"
unread "kelubashi centres: 1 of 1 words are missing: usage: kelubashi centres ELEMENTS" centres
unread "kelubashi centres: '$example' is one word too many: usage: kelubashi centres ELEMENTS" centres "$good" $example
unread "kelubashi results: -o needs a name behind it: see kelubashi results --help" results "$good" -o
unread "kelubashi results: -o is given twice: see kelubashi results --help" results "$good" -o a -o b
unread "kelubashi results: -x is no option of it: see kelubashi results --help" results -x "$good"
unread "kelubashi show: -o is no option of it: see kelubashi show --help" show -o a b c
unread "kelubashi centres: -o is no option of it: see kelubashi centres --help" centres "$good" -o a
unread "kelubashi centres: --any-bits is no option of it: see kelubashi centres --help" centres --any-bits "$good"
unread "kelubashi: 'centers' is no subcommand: see kelubashi --help" centers "$good"
unread "kelubashi results: --any-bits is no option of it: see kelubashi results --help" results --any-bits "$good"
unread "kelubashi state: 'km' is no figure: see kelubashi state --help" state 1 2 3 4 5 6 7 km
unread "kelubashi state: '1e999' is out of the range of doubles: see kelubashi state --help" state 1e999 2 3 4 5 6 7 8
unread "kelubashi state: 1 of 8 words are missing: usage: kelubashi state MU X Y Z VX VY VZ TAU" state 1 2 3 4 5 6 7

# What cannot be read.
unread "kelubashi results: $room/missing: cannot be read: No such file or directory: correct the name" results "$room/missing" -o "$room/out/file"
unread "kelubashi results: $room: cannot be read: Is a directory: name a file and not a folder" results "$room" -o "$room/out/file"
unread "kelubashi read: : cannot be read: No such file or directory: correct the name" read ''
unread "kelubashi read: $good/x: cannot be read: Not a directory: correct the name" read "$good/x"
unread "kelubashi centres: $room/missing: cannot be read: No such file or directory: correct the name" centres "$room/missing"
unread "kelubashi centres: $room: cannot be read: Is a directory: name a file and not a folder" centres -q "$room"
unread "kelubashi elements: $room/missing: cannot be read: No such file or directory: correct the name" elements "$room/missing" -o "$room/out/file"
unread "kelubashi show: $room/missing: cannot be read: No such file or directory: correct the name" show "$good" "$room/missing"
old_is_whole

# What cannot be written.
unwritable results "$good"

# Root may read and write every file, so it tries these as nobody.
chmod 711 "$room"
cp "$good" "$room/locked"
chmod 0 "$room/locked"
as_nobody=''
[ "$(id -u)" -ne 0 ] || as_nobody='setpriv --reuid=65534 --regid=65534 --clear-groups'
mkdir -m 755 "$room/as"
for word in $command; do [ ! -f "$word" ] || cp "$word" "$room/as"; done
chmod 755 "$room/as"/*
theirs=$(for word in $command; do if [ -f "$word" ]; then printf '%s ' "$room/as/${word##*/}"; else printf '%s ' "$word"; fi; done)
mine=$command command="$as_nobody $theirs"
chmod 644 "$good"
unread "kelubashi results: $room/locked: cannot be read: Permission denied: look at the rights of the file and of its folder" results "$room/locked"
chmod 555 "$room/out"
unread "kelubashi results: $room/out/file: cannot be written: Permission denied: look at the rights of the file and of its folder" results -q "$good" -o "$room/out/file"
command=$mine
chmod 755 "$room/out"
old_is_whole

# A full disk: by the limit of file sizes, with none of the file's bytes and with some.
{ echo 'centre 1' && echo 'state 0 0 1 0 0 0 0 0' && yes 'request 0 1' | head -n 1500; } >"$room/full.txt"
kelubashi 0 elements -q "$room/full.txt" -o "$room/full"
second <"$room/full" >"$room/full.results"
for blocks in 1 64; do
    limited $blocks results -q "$room/full" -o "$room/out/file"
    old_is_whole
done
limited 1 elements -q "$room/full.txt" -o "$room/out/file"
old_is_whole

# Standard output: full, closed, a pipe that nobody reads.
second <"$room/full" >"$room/full.results"
unwritten 'kelubashi results' results -q "$room/full"
unwritten 'kelubashi elements' elements -q "$room/full.txt"
unwritten 'kelubashi show' show "$room/full" "$room/full.results"
unwritten 'kelubashi read' read "$room/full"
unwritten 'kelubashi centres' centres "$room/full"
unwritten 'kelubashi state' state 1 1 0 0 0 0 0 1
unwritten 'kelubashi selfcheck' selfcheck
unwritten 'kelubashi' --help
unwritten 'kelubashi' --version
unwritten 'kelubashi show' show --help

# Closed streams take no file's number: nothing that is said goes into a file.
status=0 asked='kelubashi results, with all streams closed' wanted=1
# shellcheck disable=SC2086 # a list of words
$command results $example -o "$room/out/file" <&- >&- 2>&- || status=$?
held
new_is_whole "$room/example.results"

# ---- A machine that fails on the way: the old file or the new one, whole.

survives results "$room/full" "$room/full.results"

# ---- show believes neither file before it is judged.

foreign() {
    kelubashi 2 show "$1" "$2"
    writes_nothing
    case $(tail -n 1 "$room/said") in
    "kelubashi show: $2: $3"*) ;;
    *) fail "$asked: it says '$(cat "$room/said")' and not '$3'" ;;
    esac
    [ "$(grep -vc "^kelubashi show: $1: at byte .*refused (" "$room/said")" -eq 1 ] || fail "$asked: it says more than a line"
}
results=$room/damaged
foreign "$good" "$room/example.results" "is of another element file: it has 15 rows, and $good 1 requests: name the element file"
foreign $example "$room/good.results" "is of another element file: it has 1 rows, and $example 15 requests: name the element file"
foreign "$good" $example 'is no whole result file: it counts 2 rows, and has 672 bytes: make it anew with kelubashi results'
second <"$room/empty" >"$results"
foreign "$good" "$results" "is of another element file, one that is refused (21), and $good is not: "
foreign "$room/long" "$results" "is of another element file, one that is refused (21), and $room/long is refused (25): "
foreign "$room/empty" "$room/good.results" "is of another element file: it has rows, and $room/empty is refused: "
sed 's/600/601/' "$room/good.txt" >"$room/other.txt"
kelubashi 0 elements -q "$room/other.txt" -o "$room/other"
foreign "$room/other" "$room/good.results" "is of another element file, of another library, or damaged: in row 0 x is C0A1989379B31134, and the library answers "
head -c 103 "$room/good.results" >"$results"
foreign "$good" "$results" 'is no whole result file: it counts 1 rows, and has 103 bytes: make it anew'
foreign "$good" "$room/empty" 'is no result file: it has 0 bytes, and the shortest has 16: make it anew'
{ printf '\002' && tail -c +2 "$room/good.results"; } >"$results"
foreign "$good" "$results" 'is no result file of edition 1: its first word is 2: look whether it is a result file'
{ head -c 8 "$room/good.results" && printf '\001\000\000\000\000\000\000\040' && tail -c +17 "$room/good.results"; } >"$results"
foreign "$good" "$results" 'is no whole result file: it counts 2305843009213693953 rows, and has 104 bytes: make it anew'
for byte in 17 25 33 103; do
    { head -c $byte "$room/good.results" && printf '\377' && tail -c +$((byte + 2)) "$room/good.results"; } >"$results"
    foreign "$good" "$results" 'is of another element file, of another library, or damaged: in row 0 '
done
{ head -c 16 "$room/bad.results" && printf '\002' && tail -c +18 "$room/bad.results"; } >"$results"     # as the library before T-05 answered
foreign "$room/bad" "$results" 'is of another element file, of another library, or damaged: in row 0 the refusal is 2, and the library answers 38 to request 0 of '
cp "$room/good.results" "$results"
kelubashi 2 show "$room/no_centre" "$results"
says "kelubashi show: $room/no_centre: at byte 32, the centre of state 0: refused (24): a state's centre, or a request's state, is not there; correct that number: they start at 0 and stay below the section's count
kelubashi show: $results: is of another element file: it has rows, and $room/no_centre is refused: name the element file that it is of, or make it anew with kelubashi results"

# ---- centres: every line is held whole, to what the file has and what the document says of it.

# The element file $1 of centres with each mu of $2, and of states with each CENTRE:EPOCH of $3.
about() {
    {
        for mu in $2; do echo "centre $mu"; done
        for each in $3; do echo "state ${each%%:*} ${each#*:} 1 0 0 0 0 0"; done
    } >"$room/listing"
    kelubashi 0 elements -q --any-bits "$room/listing" -o "$1"
}

# The screen of the element file $1, with these bytes and counts $2, and from standard input for each centre: its number and mu, how many
# states have a number and a NaN for epoch, the earliest and the latest.
screen() {
    {
        echo "$1: element file of edition 1, $2"
        echo
        echo '                         states whose epoch is   epoch'
        echo 'centre     mu km^3/s^2     a number        NaN        earliest s        latest s'
        while read -r centre mu numbers nans earliest latest; do
            printf '%6s %15s   %10s %10s   %15s %15s\n' "$centre" "$mu" "$numbers" "$nans" "$earliest" "$latest"
        done
    } >"$room/screen"
    kelubashi 0 centres -q "$1"
    writes_nothing
    says ''
    kelubashi 0 centres "$1"
    writes "$room/screen"
    says ''
}

screen $example '672 bytes: centres 2, states 6, requests 15' <<SCREEN
0 398600.4418 5 0 0.000 43200.000
1 4902.8001 1 0 0.000 0.000
SCREEN
page kelubashi-centres.1 | sed -n '/^examples/,/^\.EE/p' | sed '$d' >"$room/page"
cmp -s "$room/page" "$room/screen" || fail "the example of kelubashi-centres.1 is not the screen of $example"

# In no order, below zero, the same twice, beyond the column's digits; a centre with no epoch shows +0 twice.
about "$room/several" '398600.4418 4902.8001 0 -1 1e300' \
    '0:500 2:-7.25 0:-20.5 3:-1 0:0.125 3:-3 2:-7.25 3:-2 0:1e9 4:9999999999.999 4:-1e10 0:-20.25'
screen "$room/several" '840 bytes: centres 5, states 12, requests 0' <<SCREEN
0 398600.4418 5 0 -20.500 1000000000.000
1 4902.8001 0 0 0.000 0.000
2 0.0000 2 0 -7.250 -7.250
3 -1.0000 3 0 -3.000 -1.000
4 1e+300 2 0 -1e+10 9999999999.999
SCREEN

# The same in a machine that hands over a few bytes at a time, or fails; and with a library that refuses.
fault 0 few centres "$room/several"
writes "$room/screen"
fault 2 unread centres "$room/several"
writes_nothing
says "kelubashi centres: $room/several: cannot be read: Input/output error: look at that disk or device"
for words in centres 'centres -q'; do
    # shellcheck disable=SC2086 # a list of words
    fault 2 summary $words "$room/several"
    writes_nothing
    says "kelubashi centres: $room/several: the library's summary is refused (41): the list does not have one entry for each centre; lend 4 words for each centre, and give as many as their count"
done

# Minus zero and zero are one epoch, shown as zero.
about "$room/zeros" '1 2 3 4 5' '0:-0 1:-0 1:0 2:0 2:-0 3:-0 3:-5 4:7 4:-0'
[ "$(od -An -v -t x8 -j 72 -N 8 "$room/zeros" | tr -d ' ')" = 8000000000000000 ] || fail 'the epoch of state 0 is not minus zero'
screen "$room/zeros" '648 bytes: centres 5, states 9, requests 0' <<SCREEN
0 1.0000 1 0 0.000 0.000
1 2.0000 2 0 0.000 0.000
2 3.0000 2 0 0.000 0.000
3 4.0000 2 0 -5.000 0.000
4 5.0000 2 0 0.000 7.000
SCREEN

# Infinite epochs count; states with a NaN epoch are in a count of their own only.
about "$room/not_finite" '1 2 3 4 5 6 inf nan' '0:inf 1:-inf 2:inf 2:5 3:nan 4:nan 4:-2 2:-inf 4:-nan 4:8 4:nan 5:nan 5:-0 5:-inf 7:-9 7:nan'
screen "$room/not_finite" '1120 bytes: centres 8, states 16, requests 0' <<SCREEN
0 1.0000 1 0 inf inf
1 2.0000 1 0 -inf -inf
2 3.0000 3 0 -inf inf
3 4.0000 0 1 0.000 0.000
4 5.0000 2 3 -2.000 8.000
5 6.0000 2 1 -inf 0.000
6 inf 0 0 0.000 0.000
7 nan 1 1 -9.000 -9.000
SCREEN

# The same by bytes: the first and the last NaN of either sign, the infinities beside them, and minus zero.
for each in '\001\000\000\000\000\000\360\177:0 1 0.000 0.000' '\377\377\377\377\377\377\377\177:0 1 0.000 0.000' \
    '\001\000\000\000\000\000\360\377:0 1 0.000 0.000' '\377\377\377\377\377\377\377\377:0 1 0.000 0.000' \
    '\000\000\000\000\000\000\360\177:1 0 inf inf' '\000\000\000\000\000\000\360\377:1 0 -inf -inf' \
    '\000\000\000\000\000\000\000\200:1 0 0.000 0.000'; do
    # shellcheck disable=SC2059 # bytes
    { head -c 40 "$good" && printf "${each%%:*}" && tail -c +49 "$good"; } >"$room/epoch"
    screen "$room/epoch" '120 bytes: centres 1, states 1, requests 1' <<SCREEN
0 398600.4418 ${each#*:}
SCREEN
done

# 16 centres and 500 states: centre after centre, about even ones from -250 s up, about odd ones from 250 s down.
awk 'BEGIN {
    for (k = 0; k < 16; k++) print "centre", k + 1
    for (i = 0; i < 500; i++) print "state", i % 16, i % 2 == 0 ? i - 250 : 250 - i, "1 0 0 0 0 0"
}' >"$room/listing"
kelubashi 0 elements -q "$room/listing" -o "$room/fullest"
for k in 0 1 2 3 4 5 6 7 8 9 10 11 12 13 14 15; do
    numbers=31 last=$((480 + k))
    [ $k -gt 3 ] || { numbers=32 && last=$((496 + k)); }
    case $((k % 2)) in
    0) echo "$k $((k + 1)).0000 $numbers 0 $((k - 250)).000 $((last - 250)).000" ;;
    1) echo "$k $((k + 1)).0000 $numbers 0 $((250 - last)).000 $((250 - k)).000" ;;
    esac
done >"$room/lines"
screen "$room/fullest" '32160 bytes: centres 16, states 500, requests 0' <"$room/lines"

# All 500 about the last centre, the earliest first and the latest last; no state at all; no centre.
awk 'BEGIN { for (k = 0; k < 16; k++) print "centre 1"; for (i = 0; i < 500; i++) print "state 15", i, "1 0 0 0 0 0" }' >"$room/listing"
kelubashi 0 elements -q "$room/listing" -o "$room/crowded"
{
    for k in 0 1 2 3 4 5 6 7 8 9 10 11 12 13 14; do echo "$k 1.0000 0 0 0.000 0.000"; done
    echo '15 1.0000 500 0 0.000 499.000'
} >"$room/lines"
screen "$room/crowded" '32160 bytes: centres 16, states 500, requests 0' <"$room/lines"
about "$room/bare" '1 2' ''
screen "$room/bare" '48 bytes: centres 2, states 0, requests 0' <<SCREEN
0 1.0000 0 0 0.000 0.000
1 2.0000 0 0 0.000 0.000
SCREEN
about "$room/nothing" '' ''
screen "$room/nothing" '32 bytes: centres 0, states 0, requests 0' </dev/null

# ---- elements: lines that are not good, each with its number; nothing is written.

line() {
    printf "$1" >"$room/listing"
    kelubashi 2 elements "$room/listing" -o "$room/out/file"
    writes_nothing
    says "kelubashi elements: $room/listing: line $2"
    old_is_whole
}
word='is no number of a record: those are 0, 1, 2 .., and have no sign'
state='0 1 0 0 0 0 0'
there="refused (24): a state's centre, or a request's state, is not there; correct that number: they start at 0 and stay below the section's count"
beyond='refused (23): more than 16 centres, 500 states, 1,500 requests, 1,500 rows of results or 400 rows to check; correct the count, or divide the records over several files'
line 'center 1\n' "1: 'center' is no name of a record: a line starts with centre, state or request"
line '# one\n\ncentre\n' '3: a centre has 1 words behind its name, and here are 0'
line "centre 1\nstate 0 0 1 0 0 0 0\n" '2: a state has 8 words behind its name, and here are 7'
line 'centre 1 2\n' "1: '2' is one word too many"
line 'centre 1km\n' "1: '1km' is no figure"
line 'centre 1,5\n' "1: '1,5' is no figure"
line 'centre 1e999\n' "1: '1e999' is out of the range of doubles"
line 'centre -1e999\n' "1: '-1e999' is out of the range of doubles"
line 'centre 1e-999\n' "1: '1e-999' is out of the range of doubles"
line 'centre inf\n' "1: 'inf' is not finite: write a figure, or give --any-bits"
line 'centre -nan\n' "1: '-nan' is not finite: write a figure, or give --any-bits"
line "centre 1\nstate -0 $state\n" "2: '-0' $word"
line "centre 1\nstate +0 $state\n" "2: '+0' $word"
line "centre 1\nstate 0x0 $state\n" "2: '0x0' $word"
line "centre 1\nstate 18446744073709551616 $state\n" "2: '18446744073709551616' is out of the range of numbers"
line "centre 1\nstate 1 $state\n" "2: $there"
line "centre 1\nstate 0 $state\nrequest 0 1\nrequest 18446744073709551615 1\n" "4: $there"
line "request 0 1\n" "1: $there"
line 'centre 1\ncentre \0001\n' '2: has a NUL byte: write the listing as plain text'
line '# a \000 in a comment\n' '1: has a NUL byte: write the listing as plain text'
line 'centre \0331\n' "1: '?1' is no figure"
line "centre 1\n# $(head -c 499 /dev/zero | tr '\0' x)\n" '2: is longer than 500 bytes: divide it, or shorten its comment'
line "$(yes 'centre 1\n' | head -n 17 | tr -d '\n')" "17: $beyond"
line "$(yes 'centre 1\n' | head -n 40 | tr -d '\n')" "17: $beyond"
line "centre 1\n$(yes "state 0 $state\n" | head -n 501 | tr -d '\n')" "502: $beyond"
unread "kelubashi elements: /dev/zero: is no listing: it is longer than 4194304 bytes" elements /dev/zero
unread "kelubashi elements: '$room/good.txt' is one word too many: usage: kelubashi elements LISTING [-o ELEMENTS]" elements "$room/good.txt" "$room/good.txt"

# And lines that are: carriage returns, tabs, no line end at the end, the longest line, order, comments alone, any bits.
lists() {
    kelubashi 0 elements -q "$room/listing" -o "$room/out/file"
    says ''
    new_is_whole "$1"
}
sed 's/$/\r/' "$room/good.txt" >"$room/listing"
lists "$good"
tr ' ' '\t' <"$room/good.txt" | head -c -1 >"$room/listing"
lists "$good"
{ sed -n 3p "$room/good.txt" && echo "#$(head -c 499 /dev/zero | tr '\0' x)" && sed -n 2p "$room/good.txt" && sed -n 1p "$room/good.txt"; } >"$room/listing"
lists "$good"
printf '# nothing\n' >"$room/listing"
{ printf '\001' && head -c 31 /dev/zero; } >"$room/expected"
lists "$room/expected"
{ printf '\001\000\000\000\000\000\000\000\003' && head -c 13 /dev/zero && printf '\360\177' && head -c 6 /dev/zero && printf '\360\377' &&
    printf '\001\000\000\000\000\000\000\000' && head -c 16 /dev/zero; } >"$room/expected"
printf 'centre inf\ncentre -inf\ncentre 5e-324\n' >"$room/listing"
kelubashi 0 elements --any-bits -q "$room/listing" -o "$room/out/file"
new_is_whole "$room/expected"

echo "command: $name: $cases calls, each with its exit status and its line"
