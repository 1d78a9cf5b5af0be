#!/bin/sh
# Every function that a crate shows to others has a promise, asks nothing of its caller, and has the law that any two answers which the promise
# allows are equal (proofs/OneAnswers.antt), and so has what an impl gives by the library's From, TryFrom and operators; a public function that a
# crate keeps to itself has a promise at least. What a crate shows is read
# off what rt has made of it (out/), which rt makes anew where the crate has changed. Exceptions stand below by name, with their reason.
#
#     promises.sh          whether it is so
#     promises.sh list     what crates show to others: a line for each function, with crate and path, which has dots between modules, type and name
set -eu
cd "${TREE:-$(dirname "$0")/../..}"
here=$(dirname "$0")
case $here in /*) ;; *) here=tests/tree ;; esac
list=$(mktemp)
trap 'rm -f "$list" "$list.said"' EXIT
wrong=0

say() {
    echo "promises: $1" >&2
    wrong=1
}

# What a read brings and a write takes is the machine's to answer: no definition knows it.
many_answers='streams input.read_whole
streams output.write_whole'

# A program shows nothing, and what a static library shows is held to the library that it is of by exports.sh.
crates=$(sed -n 's/^\([a-z_0-9]*\) *:.*/\1/p' crates.txt)
for crate in $crates; do
    [ -f "crates/$crate/src/lib.rt" ] || continue
    made=crates/$crate/out/rlib/$crate.rlib
    if ! (cd "crates/$crate" && rt lib) >"$list.said" 2>&1 || [ ! -f "$made/toolchain/checked.json" ]; then
        cut -c 1-1500 "$list.said" >&2
        echo "promises: $crate is not proved as it stands: run rt check in its folder" >&2
        exit 1
    fi
    # shellcheck disable=SC2046 # a list of words
    awk -v crate="$crate" -v crates=" $(echo $crates) " -f "$here/shown.awk" $(find "$made/lang/src" -name '*.rt' | sort)
done >"$list"
grep '^!' "$list" && { echo 'promises: these lines say what cannot be followed' >&2; exit 1; }

if [ "${1:-}" = list ]; then
    awk '$3 == "shown" { print $1, $2 }' "$list"
    exit
fi

# The law of a function, which rt has checked.
law() {
    laws=crates/$1/proofs/OneAnswers.antt
    [ -f "$laws" ] && grep -q "^\[\"Rattle-$1-proofs\.OneAnswers\"," "crates/$1/out/rlib/$1.rlib/toolchain/checked.json" &&
        awk -v crate="$1" -v path="$2" -f "$here/law.awk" "$laws"
}

while read -r crate path shown promised asks; do
    [ "$promised" = promised ] || say "$crate: $path has no ensures: write what it answers"
    [ "$shown" != kept ] || continue
    [ "$asks" = - ] || say "$crate: $path has a requires: what a crate shows asks nothing of its caller, and refuses instead"
    ! echo "$many_answers" | grep -qx "$crate $path" || continue
    law "$crate" "$path" || say "$crate: no law in crates/$crate/proofs/OneAnswers.antt says of $path alone that any two answers are equal"
done <"$list"

[ $wrong = 0 ] || exit 1
echo "promises: $(wc -l <"$list" | tr -d ' ') public functions have a promise; those that a crate shows, $(grep -c ' shown ' "$list"), and that an impl gives, $(grep -c ' given ' "$list"), ask nothing and have one answer, but for: $(echo "$many_answers" | tr '\n' ',' | sed 's/,$//; s/,/, /g')"
