#!/bin/sh
# Has rt prove crates, as many side by side as there are processors, with a line for each as it is done; then makes what is named.
#
#     prove.sh WHO                     every crate of crates.txt
#     prove.sh WHO archive CRATE FILE  CRATE and those below it; FILE is its static library
#     prove.sh WHO program CRATE FILE  the same; FILE is its program
#
# rt keeps in the folders out/ what it proved, and does it again only where it changed. Where a crate is not proved, what rt says is shown, and the status is 1.
# Archive and program are for any x86-64: rt's own choice of a processor is a newer one.
set -eu
cd "$(dirname "$0")/../.."
top=$PWD
who=$1 what=${2:-all} crate=${3:-} file=${4:-}
log=$top/build/prove.$who.log
mkdir -p build

if [ "$what" = all ]; then
    folder=. all=$(grep -c '^[a-z_0-9]*[^#]*:' crates.txt)
else
    folder=crates/$crate all=$(sh tests/tree/crates.sh below "$crate" | wc -l)
fi
echo "$who: rt proves $((all)) crates, those that it has not proved yet"

# Lines as they come; the status is in the file, since a pipe has that of its last.
cd "$folder"
{ rt all check --jobs "$(getconf _NPROCESSORS_ONLN)" 2>&1 && echo 'proved by rt'; } | tee "$log" |
    awk -v who="$who" -v all=$((all)) '/^== / && $2 != "summary" { printf "%s: %d of %d: %s\n", who, ++count, all, $2; fflush() }'
if [ "$(tail -n 1 "$log")" != 'proved by rt' ]; then
    # what rt says of those that are not proved, and its summary
    awk '
        NR == FNR { if (/^== summary/) on = 1; if (on && /: failed/) { sub(/:.*/, ""); bad[$0] = 1 } next }
        FNR == 1 { show = !on }
        /^== / { show = $2 in bad || $2 == "summary" }
        show' "$log" "$log" | cut -c 1-1500
    echo "$who: not all is proved: $log has what rt says" >&2
    exit 1
fi

case $what in
archive)
    rt lib --cpu=x86-64 >"$log" 2>&1 || { cut -c 1-1500 "$log"; echo "$who: rt does not make the static library of $crate" >&2; exit 1; }
    cp "out/lib$crate.a" "$top/$file"
    ;;
program)
    # rt runs what it makes. Where this machine cannot run it, it is made all the same, and the tests run it
    rm -f "out/$crate"
    rt run --cpu=x86-64 </dev/null >"$log.out" 2>"$log" || true
    grep -q '^rt: running ' "$log" && [ -f "out/$crate" ] || { cut -c 1-1500 "$log"; echo "$who: rt does not make the program of $crate" >&2; exit 1; }
    cp "out/$crate" "$top/$file"
    ;;
esac
