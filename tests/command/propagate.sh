#!/bin/sh
# The program run on files and on standard input, sound and damaged, long and short, and where it cannot
# read or write. What it writes is held, byte by byte, to what the second program gives for the whole
# file; what it says, to the README.
set -eu
cd "$(dirname "$0")/../.."
here=$PWD
room=$(mktemp -d)
trap 'rm -rf "$room"' EXIT
export LC_ALL=C     # the reasons are read below
cases=0

fail() {
    echo "program: $1" >&2
    exit 1
}

propagate() {
    sh "$here/tests/machine/x86.sh" run "$here/build/propagate" "$@"
}

expected() {
    sh "$here/tests/machine/x86.sh" run "$here/build/tests/command/second_results"
}

# Every case ends here: what was written is $2's bytes, and what was said is $3, a line or nothing.
held() {
    cmp -s "$room/wrote" "$2" || fail "$1: what it wrote is not what it has to write"
    printf '%s' "${3:+$3
}" | cmp -s "$room/said" - || fail "$1: it said '$(cat "$room/said")' and not '$3'"
    cases=$((cases + 1))
}

# ---- Files that can be read: by name, from standard input, and from a pipe.

same() {
    expected <"$1" >"$room/expected"
    propagate "$1" >"$room/wrote" 2>"$room/said"
    held "$1 by name" "$room/expected" ''
    propagate <"$1" >"$room/wrote" 2>"$room/said"
    held "$1 on standard input" "$room/expected" ''
    # a pipe hands over what it has, so reads are short
    { head -c 100 "$1" && sleep 0.1 && tail -c +101 "$1"; } 2>"$room/pipe" | propagate >"$room/wrote" 2>"$room/said"
    held "$1 from a pipe" "$room/expected" ''
}

# The first 24 bytes that it wrote are 1, 0 and this number.
refused() {
    [ "$(od -An -v -t u1 "$room/wrote" | tr -s ' \n' ' ')" = " 1 0 0 0 0 0 0 0 0 0 0 0 0 0 0 0 $2 0 0 0 0 0 0 0 " ] ||
        fail "$1 is not refused with $2"
}

example=$here/examples/orbits.elements
sh tests/machine/x86.sh run build/kelubashi elements -q examples/orbits.txt | cmp - "$example" ||
    fail 'examples/orbits.elements is not what kelubashi elements makes of examples/orbits.txt'
same "$example"
propagate crates/propagate/data/p10.elements >"$room/wrote" 2>"$room/said"
held 'P10' crates/propagate/stdout ''

: >"$room/empty"
same "$room/empty"
refused 'an empty file' 21
head -c -1 "$example" >"$room/short"
same "$room/short"
refused 'a file one byte short' 21
{ cat "$example" && printf x; } >"$room/long"
same "$room/long"
refused 'a file one byte long' 25

# As full as can be: 16 centres, 500 states, 1500 requests. Then longer, by one byte and by many.
awk 'BEGIN {
    for (i = 0; i < 16; i++) print "centre", 398600.4418 / (i + 1)
    for (i = 0; i < 500; i++) print "state", i % 16, i, 7000 + 10 * i, i, -i, 0.001 * i, 7.5, 1
    for (i = 0; i < 1500; i++) print "request", i % 500, 10 * i
}' | sh tests/machine/x86.sh run build/kelubashi elements -q /dev/stdin >"$room/full"
[ "$(wc -c <"$room/full")" -eq 56160 ] || fail 'the full file does not have 56160 bytes'
same "$room/full"
[ "$(wc -c <"$room/wrote")" -eq 132016 ] || fail 'the results of the full file do not have 132016 bytes'
for more in 1 2 8 4096 500000; do
    { cat "$room/full" && head -c $more /dev/zero; } >"$room/longer"
    same "$room/longer"
    refused "$more bytes more than a full file" 25
done

# Longer than what is read, and refused for another reason: the last request's number, a count, the edition.
{ head -c 56144 "$room/full" && printf '\377\377' && head -c 70000 /dev/zero; } >"$room/number"
same "$room/number"
refused 'a long file whose last request names no state' 24
{ head -c 32152 "$room/full" && printf '\377\377' && head -c 70000 /dev/zero; } >"$room/count"
same "$room/count"
refused 'a long file of too many requests' 23
head -c 70000 /dev/zero >"$room/zeros"
same "$room/zeros"
refused 'a long file of zeros' 22
cp "$room/wrote" "$room/expected"
propagate </dev/zero >"$room/wrote" 2>"$room/said"
held 'an input that does not end' "$room/expected" ''

# A FIFO is waited for, and read until its writer closes it.
mkfifo "$room/fifo"
expected <"$example" >"$room/expected"
(sleep 0.3 && head -c 100 "$example" && sleep 0.1 && tail -c +101 "$example") >"$room/fifo" &
propagate "$room/fifo" >"$room/wrote" 2>"$room/said"
wait
held 'a FIFO' "$room/expected" ''

# ---- What cannot be read: it is said, with the name, and nothing is written.

# $1 is the case, $2 what is said; the rest are the program's words.
unread() {
    name=$1 line=$2
    shift 2
    propagate "$@" >"$room/wrote" 2>"$room/said"
    held "$name" "$room/empty" "$line"
}

unread 'a missing file' "$room/missing: No such file or directory" "$room/missing"
unread 'a directory' "$room: Is a directory" "$room"
unread 'an empty name' ': No such file or directory' ''
unread 'a name that is too long' 'the name of the file: File name too long' "$(head -c 5000 /dev/zero | tr '\0' x)"
unread 'two names' 'usage: propagate [FILE]' "$example" "$example"
unread 'a closed standard input' 'standard input: Bad file descriptor' <&-
unread 'a directory on standard input' 'standard input: Is a directory' <"$room"

# Root may read every file, so it tries this one as nobody.
chmod 711 "$room"
cp "$example" "$room/locked"
chmod 0 "$room/locked"
cp build/propagate "$room/program"
cp tests/machine/x86.sh "$room/machine.sh"
chmod 755 "$room/program" "$room/machine.sh"
as_nobody='' unreadable='an unreadable file'
[ "$(id -u)" -ne 0 ] || as_nobody='setpriv --reuid=65534 --regid=65534 --clear-groups'
if $as_nobody sh "$room/machine.sh" run "$room/program" <"$example" >"$room/wrote" 2>"$room/said" && [ -s "$room/wrote" ]; then
    $as_nobody sh "$room/machine.sh" run "$room/program" "$room/locked" >"$room/wrote" 2>"$room/said"
    held "$unreadable" "$room/empty" "$room/locked: Permission denied"
else
    echo "program: $unreadable is not tried, since root cannot run a program as nobody here"
fi

# ---- What cannot be written is said, and no part of it is a result file.

: >"$room/wrote"
propagate "$example" >&- 2>"$room/said"
held 'a closed output' "$room/empty" 'standard output: Bad file descriptor'
propagate "$example" >/dev/full 2>"$room/said"
held 'a full device' "$room/empty" 'standard output: No space left on device'

# A pipe whose reader goes away in the middle: the program says it, as its runtime ignores the signal.
{ (trap '' PIPE && propagate "$room/full" 2>"$room/said"); } | head -c 10 >"$room/wrote"
expected <"$room/full" | head -c 10 >"$room/expected"
held 'a pipe that nobody reads to its end' "$room/expected" 'standard output: Broken pipe'

echo "program: $cases cases of files, standard input and outputs, each as the README says"
