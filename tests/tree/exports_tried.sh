#!/bin/sh
# That exports.sh tells what it has to: the two crates with one thing made wrong at a time, each of which it has to refuse.
set -eu
cd "$(dirname "$0")/../.."
here=$PWD
room=$(mktemp -d)
trap 'rm -rf "$room"' EXIT
tried=0

fail() {
    echo "exports: tried: $1" >&2
    exit 1
}

# Both crates as they are, with the archive's changed by this sed script.
with() {
    rm -rf "$room/crates"
    mkdir -p "$room/crates/kelubashi/src" "$room/crates/kelubashi_c/src" "$room/crates/kelubashi_c/proofs"
    cp crates.txt "$room"
    cp crates/kelubashi/src/lib.rt "$room/crates/kelubashi/src"
    cp crates/kelubashi_c/proofs/OneAnswers.antt "$room/crates/kelubashi_c/proofs"
    sed "$1" crates/kelubashi_c/src/lib.rt >"$room/crates/kelubashi_c/src/lib.rt"
}

told() {
    with "$2"
    ! cmp -s crates/kelubashi_c/src/lib.rt "$room/crates/kelubashi_c/src/lib.rt" || fail "nothing is changed where $1"
    ! TREE=$room sh "$here/tests/tree/exports.sh" >"$room/said" 2>&1 || fail "it is not told that $1"
    tried=$((tried + 1))
}

with ''
TREE=$room sh "$here/tests/tree/exports.sh" >"$room/said" 2>&1 || { cat "$room/said"; fail 'the crates as they are do not pass'; }

told 'a clause is gone' '/fn kelubashi1_root(/,/^[{]/{/ensures answer/d}'
told 'a clause is another' '/fn kelubashi1_root(/,/^[{]/s/answer_after 1/answer_after 2/'
told 'something is asked of the caller' '/fn kelubashi1_root(/a\    requires { word ≡ 1 }'
told 'a word comes from elsewhere' 's/Rattle\.bits\.specs\.Root\.[{]/Rattle.states.specs.Root.{/'
told 'two parameters are exchanged in the call' 's/kelubashi::kelubashi1_interval(time, epoch, /kelubashi::kelubashi1_interval(epoch, time, /'
told 'another function is called' 's/kelubashi::kelubashi1_append(/kelubashi::kelubashi1_withdraw(/'
told 'nothing is called' 's/^    kelubashi::kelubashi1_root(.*/    60/'
told 'a function is not exported' '/compared, row by row/{n;d}'
told 'an export is gone' '/compared, row by row/,$d'
told 'there is an export more' '$a\#[unsafe(no_mangle)]\npub extern "C" fn kelubashi1_more(word: u64) -> u64 {\n    word\n}'
told 'there is another item' '$a\mod answers;'
with ''
sed -i 's/^pub root_one : .*/pub root_one : Unit {0}/' "$room/crates/kelubashi_c/proofs/OneAnswers.antt"
! TREE=$room sh "$here/tests/tree/exports.sh" >"$room/said" 2>&1 || fail 'it is not told that a law is gone'
tried=$((tried + 1))
echo "exports: of $tried archives that are wrong, each in another way, all are told"
