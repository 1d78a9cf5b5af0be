#!/bin/sh
# The C of host/ and the command on this machine's own processor, with the second program in the library's place: under
# the sanitizers of addresses and of undefined behaviour, and under valgrind.
#
#     sanitized.sh                        the command's suites, and some damaged inputs
#     sanitized.sh fuzz N SEED [FIRST]    N damaged inputs of a seed, from number FIRST on
set -eu
cd "$(dirname "$0")/../.."
room=build/own
mkdir -p "$room"

fail() {
    echo "sanitize: $1" >&2
    exit 1
}

# ---- What is needed: where root, install it; else ask for it.

works() {
    printf '#include <stdio.h>\nint main(void) { return 0; }\n' >"$room/trial.c"
    cc -fsanitize=address,undefined -o "$room/trial" "$room/trial.c" && ASAN_OPTIONS=detect_leaks=0 "$room/trial" &&
        cc -g -o "$room/trial_plain" "$room/trial.c" && valgrind -q "$room/trial_plain"
}

if ! works >"$room/log" 2>&1; then
    packages='gcc libc6-dev libc6-dbg valgrind'
    what='cc with sanitizers, or valgrind, does not work here'
    # shellcheck disable=SC2086 # a list of words
    sh tests/machine/packages.sh sanitize "$what" "$room/log" $packages
    works >>"$room/log" 2>&1 || fail "$what, and installing $packages did not help: $room/log has what was tried"
fi

# ---- The programs, once with sanitizers and once plain.

command='command/*.c command/parts/*.c host/kelubashi_selfcheck.c tests/command/second_library.c'
second='tests/second/*.c'
inputs='tests/compared/shared/*.c tests/compared/files/damaged_files.c'

# One name is linked of these files; nothing is compiled twice, however many names there are.
compile() {
    how=$1 folder=$room/$2
    mkdir -p "$folder"
    # shellcheck disable=SC2086 # lists of words
    for source in $command $second $inputs host/example.c tests/command/faults.c tests/command/damaged_inputs.c; do
        object=$folder/$(echo "${source%.c}" | tr / _).o
        if [ ! -e "$object" ] || [ -n "$(find include command host tests/command tests/compared tests/second -newer "$object" -name '*.[ch]' | head -n 1)" ]; then
            echo "-c -o $object $source"
        fi
    done | xargs -r -P "$(getconf _NPROCESSORS_ONLN)" -L 1 \
        cc -std=c99 -D_XOPEN_SOURCE=700 -Wall -Wextra -Werror -g -O1 -ffp-contract=off $how -Iinclude -Itests
}

objects() {
    # shellcheck disable=SC2068 # a list of words
    for source in $@; do
        printf '%s ' "$folder/$(echo "${source%.c}" | tr / _).o"
    done
}

# shellcheck disable=SC2046,SC2086 # lists of words
link() {
    without_main=$(objects $command $second | tr ' ' '\n' | grep -v command_main)
    cc $how -o "$folder/kelubashi" $(objects $command $second) -lm
    cc $how @tests/command/wrapped -o "$folder/faulty" $(objects $command $second tests/command/faults.c) -lm
    cc $how -o "$folder/example" $(objects host/example.c host/kelubashi_selfcheck.c tests/command/second_library.c $second) -lm
    cc $how -Wl,--wrap=fsync -o "$folder/damaged_inputs" $without_main $(objects $inputs tests/command/damaged_inputs.c) -lm
}

# Leaks are valgrind's to find: the sanitizer takes seconds for them.
ASAN_OPTIONS=detect_leaks=0:abort_on_error=1
UBSAN_OPTIONS=halt_on_error=1:abort_on_error=1:print_stacktrace=1
export ASAN_OPTIONS UBSAN_OPTIONS

compile '-fsanitize=address,undefined -fno-sanitize-recover=all' sanitized
link
files=$(mktemp -d -p /dev/shm 2>"$room/log" || mktemp -d)    # in memory where that can be
trap 'rm -rf "$files"' EXIT

if [ "${1:-}" = fuzz ]; then
    shift
    "$folder/damaged_inputs" "$files" "$@"
    exit
fi

sh tests/command/suites.sh 'under sanitizers' "$folder/kelubashi" "$folder/faulty"
"$folder/example" >"$room/printed" || fail 'host/example.c fails'
"$folder/damaged_inputs" "$files"

# ---- valgrind, for words that were never set and for leaks: each subcommand, good, refused and not done.

compile '' plain
link
grind() {
    wanted=$1 status=0
    shift
    valgrind -q --leak-check=full --error-exitcode=99 "$@" >"$room/printed" 2>"$room/said" || status=$?
    [ $status -eq "$wanted" ] || fail "valgrind: $* has status $status and not $wanted: $(cat "$room/said")"
    cases=$((cases + 1))
}
cases=0
kelubashi=$folder/kelubashi
example=examples/orbits.elements
grind 1 "$kelubashi" results $example -o "$files/results"
grind 1 "$kelubashi" show $example "$files/results"
grind 0 "$kelubashi" read $example
grind 0 "$kelubashi" centres $example
grind 1 "$kelubashi" rows $example -o "$files/rows"
grind 0 "$kelubashi" check "$files/rows"
{ head -c 100 "$files/rows" && printf x && tail -c +102 "$files/rows"; } >"$files/changed"
grind 1 "$kelubashi" check "$files/changed"
head -c 200 "$files/rows" >"$files/torn"
grind 2 "$kelubashi" check "$files/torn"
grind 0 "$kelubashi" elements examples/orbits.txt -o "$files/elements"
head -c 100 "$files/results" >"$files/torn"
grind 2 "$kelubashi" show $example "$files/torn"
{ head -c 40 "$files/results" && printf x && tail -c +42 "$files/results"; } >"$files/changed"
grind 0 "$kelubashi" compare "$files/results" "$files/results"
grind 1 "$kelubashi" compare --all "$files/results" "$files/changed"
grind 2 "$kelubashi" compare "$files/results" "$files/changed" "$files/torn" "$files/results"
head -c 100 $example >"$files/short"
grind 1 "$kelubashi" results "$files/short"
grind 1 "$kelubashi" centres "$files/short"
grind 2 "$kelubashi" rows "$files/short"
printf 'centre 1\nstate 3 0 1 0 0 0 0 0\n' >"$files/listing"
grind 2 "$kelubashi" elements "$files/listing"
grind 0 "$kelubashi" state 398600.4418 1131.340 -2282.343 6672.423 -5.64305 4.30333 2.42879 600
grind 0 "$folder/example"
grind 0 "$folder/damaged_inputs" "$files" 150
echo "sanitize: host/ and the command are clean under the sanitizers; and under valgrind, $cases calls"
