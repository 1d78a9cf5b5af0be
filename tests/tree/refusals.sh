#!/bin/sh
# The refusals in words: the table in the header has every number that a call gives and no other, and the C of host/ and command/ has no words
# of its own for them. That the manual pages have the same words is seen by tables.sh.
set -eu
cd "$(dirname "$0")/../.."
export LC_ALL=C     # lists are sorted and compared below
room=build/refusals
mkdir -p "$room"

fail() {
    echo "refusals: $1" >&2
    exit 1
}

sh tests/machine/x86.sh compile -std=c99 -Wall -Wextra -pedantic -Wconversion -Werror -Iinclude -o "$room/table" tests/tree/refusal_table.c
sh tests/machine/x86.sh run "$room/table" >"$room/words"

# What the calls' comments number, up to a full stop or semicolon; 'a to b' is every number of these.
sed -n 's/^\*\*  Refusals: \([^.;]*\).*/\1/p' include/kelubashi.h |
    awk '{
        gsub(/[^0-9to ]/, " ")
        for (i = 1; i <= NF; i++) {
            if ($i == "to" && $(i - 1) + 0 > 0) { for (j = $(i - 1) + 1; j < $(i + 1); j++) print j }
            else if ($i + 0 > 0) print $i + 0
        }
    }' | sort -nu >"$room/given"
cut -d '|' -f 1 "$room/words" | diff "$room/given" - || fail "the calls' refusals are marked <, those with words >"

cut -d '|' -f 2 "$room/words" >"$room/texts"
if grep -nFf "$room/texts" host/*.[ch] command/*.c command/parts/*.c; then
    fail 'these lines have words of their own for a refusal: use kelubashi_refusal_text'
fi
echo "refusals: $(wc -l <"$room/words") in words, each that a call gives"
