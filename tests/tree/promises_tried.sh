#!/bin/sh
# That promises.sh tells what it has to: a crate that rt proves, with one function that is as it should be and others of which each is hollow in
# another way. Of each of those it has to say a line, and of the first none.
set -eu
cd "$(dirname "$0")/../.."
here=$PWD
room=$(mktemp -d)
trap 'rm -rf "$room"' EXIT

fail() {
    echo "promises: tried: $1" >&2
    exit 1
}

mkdir -p "$room/crates/bits" "$room/crates/tried/src/answers" "$room/crates/tried/proofs"
cp -R crates/bits/src crates/bits/specs crates/bits/proofs "$room/crates/bits"     # what one answer is stands there
cd "$room"
printf 'bits:\ntried: bits\n' >crates.txt

cat >crates/tried/src/lib.rt <<'SOURCE'
// Functions, one of them sound.
#![tactic(auto)]

ghost use Rattle.std.specs.Prelude.{◌≡◌};
mod answers;
mod between;
pub use answers::{left, other as renamed};
pub use between::hop;

pub fn tried_sound(word: u64) -> u64
    ensures { result ≡ word }
{
    word
}

pub fn tried_asks(word: u64) -> u64
    requires { word ≡ 1 }
    ensures { result ≡ word }
{
    word
}

pub fn tried_never(word: u64) -> u64
    requires { ⊥ }
    ensures { result ≡ word }
{
    0
}

pub const fn fixed() -> u64 {
    7
}

pub fn circular(word: u64) -> u64
    ensures { result ≡ result }
{
    word
}
SOURCE
cat >crates/tried/src/answers.rt <<'SOURCE'
ghost use Rattle.std.specs.Prelude.{◌≡◌};
mod more;
pub mod three;

pub fn left(word: u64) -> u64 {
    word
}

pub fn other(word: u64) -> u64 {
    word
}

pub trait Tried {
    fn tried_hollow(&self) -> u64;

    fn tried_whole(&self) -> u64
        ensures { result ≡ result };
}

pub struct Word<T> {
    pub value: T,
}

impl<T: Copy> Tried for Word<T> {
    fn tried_hollow(&self) -> u64 {
        7
    }

    fn tried_whole(&self) -> u64 {
        7
    }
}

impl From<Word<u64>> for u64 {
    ghost from_gives = { λ word number. number ≡ number };

    fn from(word: Word<u64>) -> u64 {
        let Word { value } = word;
        value
    }
}

impl<T: Copy> Word<T> {
    pub fn tried_value(&self) -> T {
        self.value
    }
}
SOURCE
cat >crates/tried/src/answers/more.rt <<'SOURCE'
pub fn tried_deep(word: u64) -> u64 {
    word
}
SOURCE
cat >crates/tried/src/answers/three.rt <<'SOURCE'
pub fn far(word: u64) -> u64 {
    word
}
SOURCE
echo 'pub use crate::answers::three::far as hop;' >crates/tried/src/between.rt

# The laws: of each entry point and of the circular function; that of the last says nothing.
echo 'pub mod OneAnswers' >crates/tried/proofs/Lib.antt
{
    echo 'use mathlib.Core.Path.{refl, sym, ◌∙◌}'
    echo 'use Rattle.bits.specs.OneAnswer.{OneAnswer}'
    for name in tried_sound tried_asks tried_never circular; do
        echo "use Rattle.tried.proofs.$name.Kinds as $name-kinds"
        echo "use Rattle.tried.proofs.$name.Reads as $name-reads"
    done
    for name in tried_sound tried_asks tried_never; do
        printf '\npub %s-one : OneAnswer 0 %s-kinds.ps %s-kinds.r %s-reads.Post\n' $name $name $name $name
        echo "$name-one κs a x y v w p q = (p ∙ sym q, refl)"
    done
    printf '\npub circular-one : OneAnswer 0 circular-kinds.ps circular-kinds.r circular-reads.Post → OneAnswer 0 circular-kinds.ps circular-kinds.r circular-reads.Post\n'
    echo 'circular-one one = one'
} >crates/tried/proofs/OneAnswers.antt
(cd crates/tried && rt lib) >said 2>&1 || { cut -c 1-300 said; fail 'rt does not prove the crate'; }

if TREE=$room sh "$here/tests/tree/promises.sh" >said 2>&1; then
    fail 'all of it passes'
fi
{
    for path in answers.left answers.other answers.three.far answers.more.tried_deep answers.Tried.tried_hollow answers.Word.tried_value fixed; do
        echo "promises: tried: $path has no ensures: write what it answers"
    done
    for path in tried_asks tried_never; do
        echo "promises: tried: $path has a requires: what a crate shows asks nothing of its caller, and refuses instead"
    done
    for path in answers.left answers.other answers.three.far answers.Word.tried_value answers.U64FromWordU64.from fixed circular; do
        echo "promises: tried: no law in crates/tried/proofs/OneAnswers.antt says of $path alone that any two answers are equal"
    done
} | sort >wanted
sort said | diff wanted - || fail 'the lines marked < are not said, and those marked > should not be'

# A C call in a private module of a library, which no archive has.
cat >>crates/tried/src/answers/more.rt <<'SOURCE'

#[unsafe(no_mangle)]
pub extern "C" fn tried_exported(word: u64) -> u64 {
    word
}
SOURCE
if TREE=$room sh "$here/tests/tree/promises.sh" >said 2>&1; then
    fail 'an export in a library passes'
fi
grep -qx '! tried: answers.more.tried_exported: a C call of a library is in no archive: it belongs into kelubashi_c' said || {
    cut -c 1-300 said
    fail 'an export in a library is not told'
}
echo "promises: of eleven functions that are hollow, each in another way, all are told, and the sound one is not; an export in a library is told too"
