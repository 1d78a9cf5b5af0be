#!/bin/sh
# The map, the wrong programs and the crates agree: each wrong program names a promise that is there, and each promise has two wrong programs
# or more; the gate tries two a crate at most; what the map says a breach is caught by is there; and what a wrong program takes out stands
# in its crate, once.
set -eu
cd "$(dirname "$0")/../.."
map=docs/STATEMENTS.md
room=build/map
mkdir -p "$room"
wrong=0

say() {
    echo "map: $1" >&2
    wrong=1
}

# ---- Promises and wrong programs. A promise is CRATE FUNCTION, or FUNCTION of the crate whose program it is; a function may have its type or its
# module before it: Shape::place, words::append. A program shows nothing; what it promises is the step between its reading and its writing.

sh tests/tree/promises.sh list >"$room/shown" || exit 1
echo 'propagate results_of' >>"$room/shown"
for edit in crates/*/must-fail/*.edit tests/wrong/*/*.edit; do
    crate=$(echo "$edit" | sed 's|^crates/||; s|^tests/wrong/||; s|/.*||')
    sed -n '1s/: .*//; 1s/^# //p' "$edit" | tr ',' '\n' | awk -v crate="$crate" -v edit="$edit" '{ print edit, NF == 2 ? $1 : crate, $NF }' >"$room/names"
    [ -s "$room/names" ] || say "$edit: its first line does not name a promise: write # FUNCTION: what is wrong"
    cat "$room/names"
done >"$room/broken"
awk '
    NR == FNR { crate[NR] = $1; path[NR] = "." $2; last = NR; next }
    {
        name = "." $3
        gsub(/::/, ".", name)
        count = 0
        for (i = 1; i <= last; i++)
            if ($2 == crate[i] && substr(path[i], length(path[i]) - length(name) + 1) == name) { many[i]++; count++ }
        if (count != 1) print $1 ": " $2 " " $3 " is " (count == 0 ? "no function that a crate shows" : "not one function alone: give its module or type")
    }
    END {
        for (i = 1; i <= last; i++) if (many[i] < 2) print crate[i] " " substr(path[i], 2) ": this function has " many[i] + 0 " wrong programs: write two"
    }' "$room/shown" "$room/broken" >"$room/said"
while IFS= read -r line; do say "$line"; done <"$room/said"

for folder in crates/*/must-fail; do
    [ "$(find "$folder" -name '*.edit' | wc -l)" -le 2 ] || say "$folder has more than two wrong programs: the others belong into tests/wrong"
done

# ---- What the map says a breach is caught by: names with an underscore behind "caught by:" are wrong programs, or cases and laws of the crates.

grep -rhoE --include='*.antt' '^(pub |abbrev |unfoldable |opaque )*[^ ]+ :' crates/*/specs crates/*/proofs | sed 's/ :$//; s/.* //' | sort -u >"$room/stated"
for name in $(awk '/^ *- caught by:/ { on = 1 } /^ *- / && !/caught by:/ { on = 0 } /^$/ { on = 0 } on { print }' $map |
    grep -o '`[a-z0-9]*_[a-z0-9_]*`' | tr -d '`' | sort -u); do
    [ -n "$(find crates/*/must-fail tests/wrong -name "$name.edit")" ] || grep -qx -- "$name" "$room/stated" ||
        say "$map names $name, and there is no wrong program, case or law of that name"
done

# ---- What a wrong program takes out.

for edit in crates/*/must-fail/*.edit tests/wrong/*/*.edit; do
    case $edit in
    crates/*) crate=$(echo "$edit" | cut -d / -f 1,2) ;;
    *) crate=crates/$(echo "$edit" | cut -d / -f 3) ;;
    esac
    said=$(awk -v crate="$crate" -f tests/tree/edited.awk "$edit")
    [ -z "$said" ] || say "$edit: what it takes out $said"
done

[ $wrong = 0 ] || exit 1
echo "map: $(find crates/*/must-fail -name '*.edit' | wc -l) wrong programs for the gate and $(find tests/wrong -name '*.edit' | wc -l) more, each of a promise, and each fits its crate"
