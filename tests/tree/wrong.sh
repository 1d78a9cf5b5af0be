#!/bin/sh
# The wrong programs of tests/wrong, which the prover has to refuse: all of them, or those of these crates and of every crate that uses one of them.
# They are edits of the same form as those of crates/*/must-fail, which every run of the gate tries, and are tried in a copy of the crates.
#
#     wrong.sh                   all
#     wrong.sh CRATE..           those of these crates, and of what uses them
#     wrong.sh CRATE/NAME..      these alone
#
# What rt says of each is shown, and kept in build/wrong/CRATE/NAME.log. Of those that are asked for alone the log has all that a check says. Read it: where it
# only says that a proof file no longer fits, the program shows nothing.
set -eu
cd "$(dirname "$0")/../.."
here=$PWD
room=$(mktemp -d)
trap 'rm -rf "$room"' EXIT

# What is proved already need not be proved again: rt finds it by itself.
cp crates.txt "$room"
for crate in crates/*; do
    mkdir -p "$room/$crate"
    for part in src specs proofs; do
        [ ! -d "$crate/$part" ] || cp -R "$crate/$part" "$room/$crate"
    done
done

take() {
    mkdir -p "$room/crates/$1/must-fail"
    cp "$2" "$room/crates/$1/must-fail/"
}

alone=''
for word in "$@"; do
    case $word in
    */*)
        [ -f "tests/wrong/$word.edit" ] || { echo "wrong: there is no tests/wrong/$word.edit" >&2; exit 1; }
        take "${word%%/*}" "tests/wrong/$word.edit"
        alone="$alone ${word%%/*}"
        ;;
    esac
done
if [ -n "$alone" ]; then
    crates=$(printf '%s\n' $alone | sort -u)
elif [ $# -eq 0 ]; then
    crates=$(sed -n 's/^\([a-z_0-9]*\)[^#]*:.*/\1/p' crates.txt)
else
    crates=$(sh tests/tree/crates.sh above "$@")
fi
if [ -z "$alone" ]; then
    for crate in $crates; do
        for edit in tests/wrong/"$crate"/*.edit; do
            [ ! -f "$edit" ] || take "$crate" "$edit"
        done
    done
fi
echo "wrong: $(find "$room/crates" -name '*.edit' | wc -l) wrong programs of: $(echo $crates)"

cd "$room"
status=0
# shellcheck disable=SC2086 # a list of words
{ rt must-fail $crates 2>&1 || echo 'not all are refused'; } | tee said
[ "$(tail -n 1 said)" != 'not all are refused' ] || status=1

# A line of rt's says one thing of one edit, and what follows it until the next belongs to it.
mkdir -p "$here/build/wrong"
awk -v room="$here/build/wrong" '
    /^rt: must-fail [^ ]*\.edit: / {
        path = $3
        sub(/\.edit:$/, ".log", path)
        folder = path
        sub(/\/.*/, "", folder)
        if (!(folder in made)) { system("mkdir -p \"" room "/" folder "\""); made[folder] = 1 }
        path = room "/" path
        printf "" >path
    }
    /^rt: / && !/^rt: must-fail / { path = "" }
    path != "" { print >>path }' said

for word in $([ -z "$alone" ] || echo "$@"); do
    crate=${word%%/*} report=$here/build/wrong/$word.log
    cp -R "crates/$crate" kept
    rm -rf "crates/$crate/must-fail"
    if [ -z "$(awk -v crate="crates/$crate" -v write=1 -f "$here/tests/tree/edited.awk" "$here/tests/wrong/$word.edit")" ]; then
        (echo && cd "crates/$crate" && rt check) >>"$report" 2>&1 || true
        echo "wrong: build/wrong/$word.log has what the check says"
    fi
    rm -rf "crates/$crate"
    mv kept "crates/$crate"
done
exit $status
