#!/bin/sh
# The self-check is silent where all is well, and tells each fault in its own words: of the processor,
# of a host linked with -ffast-math, and of a library. It has to be so however a host is compiled.
set -eu
cd "$(dirname "$0")/../.."
room=build/selfcheck
mkdir -p "$room"

compile() {
    sh tests/machine/x86.sh compile -std=c99 -Wall -Wextra -pedantic -Werror -Iinclude -Itests "$@"
}

run() {
    sh tests/machine/x86.sh run "$@"
}

# fast-math alone may change a host's own figures; what it links is what changes the library's
for how in -O0 -O2 '-O3 -ffast-math'; do
    # shellcheck disable=SC2086 # a list of words
    compile $how -c -o "$room/selfcheck.o" host/kelubashi_selfcheck.c
    compile -O2 -o "$room/sound" tests/interface/selfcheck.c "$room/selfcheck.o" build/libkelubashi.a -lm
    run "$room/sound" >"$room/said" || { cat "$room/said"; echo "selfcheck: compiled with $how" >&2; exit 1; }
    compile -O2 -ffast-math -o "$room/fast" tests/interface/selfcheck.c "$room/selfcheck.o" build/libkelubashi.a -lm
    run "$room/fast" fast >"$room/said_fast" || { cat "$room/said_fast"; echo "selfcheck: compiled with $how" >&2; exit 1; }
done
cat "$room/said" "$room/said_fast"

compile -O2 -ffp-contract=off -o "$room/faults" tests/interface/selfcheck_faults.c host/kelubashi_selfcheck.c tests/second/*.c -lm
run "$room/faults"

# The example host says it and stops, and so does the command, with status 3, whatever it is asked.
if ! grep -q 'NOT TRIED' "$room/said_fast"; then
    compile -ffast-math -o "$room/example" host/example.c host/kelubashi_selfcheck.c build/libkelubashi.a
    if run "$room/example" >"$room/wrote" 2>"$room/line"; then
        echo 'selfcheck: host/example.c, linked with -ffast-math, goes on' >&2
        exit 1
    fi
    if [ -s "$room/wrote" ] || ! grep -q '^example: the processor makes subnormal results zero' "$room/line"; then
        echo 'selfcheck: host/example.c, linked with -ffast-math, does not say it and stop' >&2
        exit 1
    fi
    compile -ffast-math -o "$room/kelubashi" build/objects/command/*.o build/objects/command/parts/*.o build/objects/host/kelubashi_selfcheck.o \
        build/libkelubashi.a
    rm -f "$room/results"
    for words in selfcheck 'selfcheck -q' "results examples/orbits.elements -o $room/results" 'read examples/orbits.elements' 'centres examples/orbits.elements' \
        'check examples/orbits.elements' "rows examples/orbits.elements -o $room/results" 'compare examples/orbits.elements examples/orbits.elements' \
        'show examples/orbits.elements examples/orbits.elements' 'elements examples/orbits.txt' 'state 0 1 0 0 0 0 0 1'; do
        status=0
        # shellcheck disable=SC2086 # a list of words
        run "$room/kelubashi" $words >"$room/wrote" 2>"$room/line" || status=$?
        if [ $status -ne 3 ] || [ -s "$room/wrote" ] || [ -e "$room/results" ] || [ "$(wc -l <"$room/line")" -ne 1 ] ||
            ! grep -q "^kelubashi ${words%% *}: the self-check failed: the processor makes subnormal results zero" "$room/line"; then
            echo "selfcheck: kelubashi $words, linked with -ffast-math, has status $status and says: $(cat "$room/line")" >&2
            exit 1
        fi
    done
    echo 'selfcheck: a host linked with -ffast-math is told; host/example.c stops there, and kelubashi with status 3'
fi
