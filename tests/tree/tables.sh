#!/bin/sh
# What pages have from elsewhere stands there once, and is copied by this script: the words of the refusals, from the header into the manual
# pages; and the wrong programs, from the first line of each into the map.
#
#     tables.sh          whether the pages have what they should
#     tables.sh write    writes it there
set -eu
cd "$(dirname "$0")/../.."
room=build/tables
mkdir -p "$room"
wrong=0

# The page $1, as it should be, is $room/page.
held() {
    cmp -s "$1" "$room/page" && return
    if [ "$way" = write ]; then
        cp "$room/page" "$1"
        echo "tables: $1 is written anew"
    else
        diff "$1" "$room/page" | sed -n 1,12p >&2
        echo "tables: $1 has the lines marked < and should have those marked >: run make tables" >&2
        wrong=1
    fi
}
way=${1:-}

# ---- The refusals. In a page's part REFUSALS, the two lines behind a number are its words and what to do, each as a sentence.

sh tests/machine/x86.sh compile -std=c99 -Wall -Wextra -pedantic -Wconversion -Werror -Iinclude -o "$room/refusals" tests/tree/refusal_table.c
sh tests/machine/x86.sh run "$room/refusals" >"$room/words"
for page in man/*; do
    grep -q '^\.SH REFUSALS' "$page" || continue
    awk -F '|' '
        function sentence(text) { return toupper(substr(text, 1, 1)) substr(text, 2) "." }
        NR == FNR { text[$1] = sentence($2); advice[$1] = sentence($3); next }
        /^\.SH / { on = $0 == ".SH REFUSALS"; left = 0 }
        left > 0 { left--; next }
        { print }
        on && /^\.B [0-9]+$/ {
            number = substr($0, 4)
            print text[number]
            print advice[number]
            left = 2
            if (before != ".TP") { print "tables: " FILENAME ": there is no .TP before .B " number > "/dev/stderr"; bad = 1 }
        }
        { before = $0 }
        END { exit bad }' "$room/words" "$page" >"$room/page" || wrong=1
    held "$page"
done

# ---- The wrong programs: a table for each crate, in the order of crates.txt.

# What an edit changes: the code, the promise that stands there, a definition, or code and definition both.
listed() {
    for edit in crates/"$1"/must-fail/*.edit tests/wrong/"$1"/*.edit; do
        [ -f "$edit" ] || continue
        name=$(basename "$edit" .edit)
        case $edit in crates/*) name="**$name**" ;; esac
        awk -v name="$name" '
            NR == 1 {
                line = substr($0, 3)
                at = index(line, ": ")
                promises = substr(line, 1, at - 1)
                text = substr(line, at + 2)
            }
            /^file: / { specs = /^file: specs\//; src = /^file: src\// }
            /^old: / {
                if (specs) definition = 1
                else if (src && /ensures|requires|≡|\.(old|new|now)([^A-Za-z0-9_]|$)/) promise = 1
                else code = 1
            }
            END {
                changes = promise ? "promise" : code && definition ? "both" : code ? "code" : "definition"
                print "| " promises " | " name " | " changes " | " text " |"
            }' "$edit"
    done | LC_ALL=C sort -t '|' -k 2,2 -k 3,3
}

{
    sed '/^<!-- from here on: made by make tables -->$/q' docs/STATEMENTS.md
    for crate in $(sed -n 's/^\([a-z_0-9]*\)[^#]*:.*/\1/p' crates.txt); do
        listed "$crate" >"$room/rows"
        [ -s "$room/rows" ] || continue
        printf '\n### `%s`\n\n| Promise | Wrong program | Changed | What is wrong |\n|---|---|---|---|\n' "$crate"
        cat "$room/rows"
    done
} >"$room/page"
held docs/STATEMENTS.md

[ $wrong = 0 ] || exit 1
echo 'tables: the pages have the refusals as the header says them, and the map has every wrong program'
