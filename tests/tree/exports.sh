#!/bin/sh
# The archive's crate is thin: kelubashi_c exports each function of kelubashi, and nothing else, with the same parameters and the same clauses, whose words
# come from the same modules, and does nothing but call it with its own parameters in their order; and each has the law that its clauses leave one answer. So
# what is held of kelubashi's functions by promises.sh and by the wrong programs is held of the exports, whose clauses and laws rt has proved.
set -eu
cd "${TREE:-$(dirname "$0")/../..}"
here=$(dirname "$0")
case $here in /*) ;; *) here=tests/tree ;; esac
room=$(mktemp -d)
trap 'rm -rf "$room"' EXIT
export LC_ALL=C     # lists are sorted and compared below

fail() {
    echo "exports: $1" >&2
    exit 1
}

[ "$(find crates/kelubashi_c/src -type f)" = crates/kelubashi_c/src/lib.rt ] ||
    fail 'crates/kelubashi_c/src has another file than lib.rt: its exports stand there alone'
[ ! -d crates/kelubashi_c/specs ] || fail 'crates/kelubashi_c has definitions of its own: its clauses are in the words of the crates below'
grep -qE '^kelubashi_c staticlib:.* kelubashi( |$)' crates.txt || fail 'crates.txt does not have kelubashi_c as a static library over kelubashi'

awk -f "$here/exports.awk" crates/kelubashi/src/lib.rt >"$room/library"
awk -v exported=1 -f "$here/exports.awk" crates/kelubashi_c/src/lib.rt >"$room/archive"
! grep '^other ' "$room/archive" || fail 'kelubashi_c has what is no export: these lines'

for what in promise use body; do
    for side in library archive; do
        sed -n "s/^$what //p" "$room/$side" | sort >"$room/$side.$what"
    done
done
[ -s "$room/library.promise" ] || fail 'no function of kelubashi is found'
diff "$room/library.promise" "$room/archive.promise" || fail "kelubashi's functions are marked <, and exports that differ are marked >"
comm -13 "$room/library.use" "$room/archive.use" >"$room/foreign"
[ ! -s "$room/foreign" ] || fail "kelubashi's clauses have these words from elsewhere, or not at all: $(tr '\n' ' ' <"$room/foreign")"

# name(a: A, b: B) -> .. is called as name(a, b)
sed 's/^\([a-z0-9_]*\) (\(.*\)) -> u64 .*/\1 \2/; s/: [^,]*//g; s/^\([a-z0-9_]*\) \(.*\)/\1 kelubashi::\1(\2)/' "$room/archive.promise" | sort >"$room/calls"
diff "$room/calls" "$room/archive.body" || fail 'the calls that exports should make are marked <, and what they do is marked >'
# rt refuses a file of proofs that no line in proofs/Lib.antt names.
while read -r name _; do
    awk -v crate=kelubashi_c -v path="$name" -f "$here/law.awk" crates/kelubashi_c/proofs/OneAnswers.antt ||
        fail "no law in crates/kelubashi_c/proofs/OneAnswers.antt says of $name alone that any two answers are equal"
done <"$room/calls"
echo "exports: the archive has kelubashi's $(wc -l <"$room/calls") functions and nothing else, each with its clauses and one answer"
