#!/bin/sh
# The places in src/ that docs/DESIGN-PASS.md counts, at a commit: a line for each that the patterns find, and their number. Which of them are of an old form is
# said in the page, by reading.
#
#     forms.sh [COMMIT]     HEAD where none is named
set -eu
cd "$(dirname "$0")/.."
commit=${1:-HEAD}

# What the archive's crate has is what `kelubashi` has, a second time.
count() {
    echo "== $1"
    git grep -nE "$2" "$commit" -- 'crates/*/src/*.rt' ':!crates/kelubashi_c' | sed "s/^$commit://" | tee "$room"
    echo "== $1: $(wc -l <"$room" | tr -d ' ')"
}
room=$(mktemp)
trap 'rm -f "$room"' EXIT

count 'enums' '^(pub )?enum '
count 'numbers for refusals, by type' '(refusal|number): u64|Refused\(u64'
count 'numbers for refusals, written out' \
    '(Refused|refused_with)\([0-9]|return (1|8|9|24|27|42|60);|(number|refusal): [0-9]+[, ]|(need|refuse)\(.*[^0-9a-z_][0-9]{2}, |31 \+'
count 'a word for nothing' '(->|: ) *u64.*(offered|proposal)|fn (inside|offered|by_radius|by_interval|by_ends|proposal|offer|chosen_place|tried|rounds_after)\('
count 'loops with a test' '^ *(while|loop) '
count 'tests and numbers by hand' \
    'x != x|f64::to_bits|u64::leading_zeros|true \} else \{ false|1\.0 / 0\.0|-?\(1\.0 / 0\.0|fn [a-z_]*_word\(|fn (is_edition|edition_of|index|one_of|are_same|copy_words|is_finite_word|verdict_of)\('
count 'parameters that travel together' \
    'initial: Initial, tau: Seconds|file: &\[u8\], shape: Shape|edition: Edition, section: Section|states: &\[u64\], edition: Edition|^ *initial: Initial,$|centres: &\[u64\],'
count 'lengths beside a buffer' 'file: &\[u8\], n: usize|[a-z]+\[\.\.(n|size)\]'
count 'switches' 'seeking: Seeking|sought: Sought|of_position: bool|by_position: bool'
echo "== answers: $(git ls-tree -r --name-only "$commit" crates | grep -cE '/(Answers|Invariants|Proof)\.antt$') files of proofs of functions," \
    "$(git ls-tree -r --name-only "$commit" crates | grep -E '/(Answers|Invariants|Proof)\.antt$' | while read -r f; do git show "$commit:$f"; done | wc -l) lines;" \
    "proofs/*.antt: $(git ls-tree -r --name-only "$commit" crates | grep -E 'crates/[a-z_]*/proofs/[A-Za-z]*\.antt$' | while read -r f; do git show "$commit:$f"; done | wc -l) lines"
