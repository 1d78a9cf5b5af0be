#!/bin/sh
# What make install puts down: these files and no others, with these modes; hosts that pkg-config alone
# builds, the program and the command; manual pages that say what the header says; and nothing after make uninstall.
set -eu
cd "$(dirname "$0")/../.."
export LC_ALL=C     # lists are sorted and compared below
room=$(mktemp -d)
trap 'rm -rf "$room"' EXIT
prefix=/station
root=$room/root

fail() {
    echo "install: $1" >&2
    exit 1
}

# ---- pkg-config: where root, install it; else ask for it.

if ! command -v pkg-config >/dev/null; then
    sh tests/machine/packages.sh install 'pkg-config is not found' build/install.log pkgconf
    command -v pkg-config >/dev/null || fail 'pkg-config is not found, and installing pkgconf did not help: build/install.log has what was tried'
fi

# ---- The files: what is copied, and nothing else.

calls=$(grep -o 'kelubashi1_[a-z]*' include/kelubashi.h | sort -u)
inline='kelubashi_propagate kelubashi_partials kelubashi_refusal_text kelubashi_refusal_advice'
subcommands='results show elements read centres check rows compare state selfcheck'

# Only what is in build/ is copied, and under a narrow umask, which must not matter.
put() {
    (umask 077 && make -s --no-print-directory install-files DESTDIR="$root" PREFIX="$prefix") ||
        fail 'make install-files fails'
}

mkdir "$root"
put
[ -z "$(find "$root$prefix" -type d ! -perm 755)" ] || fail 'a folder does not have the mode 755'
chmod 711 "$root$prefix" "$root$prefix/bin"
put
[ "$(find "$root$prefix" -type d ! -perm 755 | wc -l)" -eq 2 ] || fail 'the mode of a folder that was there is changed'

{
    echo '755 bin/kelubashi'
    echo '755 bin/propagate'
    echo '644 include/kelubashi.h'
    echo '644 include/kelubashi_selfcheck.h'
    echo '644 lib/libkelubashi.a'
    echo '644 lib/pkgconfig/kelubashi.pc'
    echo '644 share/kelubashi/kelubashi_selfcheck.c'
    echo '644 share/kelubashi/kelubashi_selfcheck_cases.h'
    for name in propagate kelubashi $(printf 'kelubashi-%s ' $subcommands); do
        echo "644 share/man/man1/$name.1"
    done
    echo '644 share/man/man3/kelubashi.3'
    echo '644 share/man/man3/kelubashi_selfcheck.3'
    echo '644 share/man/man5/kelubashi-elements.5'
    echo '644 share/man/man5/kelubashi-results.5'
    echo '644 share/man/man5/kelubashi-rows.5'
    echo "$calls $inline" | tr ' ' '\n' | sed 's|.*|link share/man/man3/&.3 -> kelubashi.3|'
} | sort >"$room/wanted"
{
    find "$root" -type f -printf "%m %P\n"
    find "$root" -type l -printf "link %P -> %l\n"
} | sed "s|${prefix#/}/||" | sort >"$room/there"
diff "$room/wanted" "$room/there" || fail 'the files marked < are not installed, and those marked > should not be'

there=$root$prefix
cmp include/kelubashi.h "$there/include/kelubashi.h" || fail 'another header is installed'
cmp build/libkelubashi.a "$there/lib/libkelubashi.a" || fail 'another archive is installed'
cmp build/propagate "$there/bin/propagate" || fail 'another program is installed'
cmp build/kelubashi "$there/bin/kelubashi" || fail 'another command is installed'
if grep -rF "$room" "$there" >"$room/found"; then
    fail "a file has DESTDIR in it: $(cat "$room/found")"
fi

# Any DESTDIR will do.
make -s --no-print-directory install-files DESTDIR="$room/a root & 'more'" PREFIX="$prefix" || fail 'make install-files into a DESTDIR with a space fails'
diff -r "$root" "$room/a root & 'more'" || fail 'another DESTDIR gets other files'

# A PREFIX that pkg-config could not hand on is refused in a line, and nothing is put down.
for bad in here '/a station' '/this&that' "/'quoted'" '/$dollar' ''; do
    for what in install-files uninstall; do
        if make -s --no-print-directory $what DESTDIR="$room/other" PREFIX="$(echo "$bad" | sed 's/\$/$$/')" >"$room/said" 2>&1; then
            fail "make $what takes PREFIX '$bad'"
        fi
        [ "$(grep -c '^install: PREFIX is' "$room/said")" -eq 1 ] || fail "PREFIX '$bad' is not refused in a line: $(cat "$room/said")"
        [ ! -e "$room/other" ] || fail "something is installed although PREFIX is '$bad'"
    done
done

# ---- The README's host, far from this folder, with the words of pkg-config and no others.

config() {
    PKG_CONFIG_PATH='' PKG_CONFIG_LIBDIR="$there/lib/pkgconfig" PKG_CONFIG_SYSROOT_DIR="$root" pkg-config "$@"
}

grep -qx "prefix=$prefix" "$there/lib/pkgconfig/kelubashi.pc" || fail 'kelubashi.pc does not have PREFIX'
flags=$(config --cflags --libs kelubashi) || fail 'pkg-config does not find the library'
sh tests/tree/readme_block.sh c >"$room/program.c"
sh tests/tree/readme_block.sh text >"$room/expected"
here=$PWD
# shellcheck disable=SC2086 # a list of words
(cd "$room" && sh "$here/tests/machine/x86.sh" compile -o program program.c $flags) ||
    fail "the README's program does not compile with: $flags"
sh tests/machine/x86.sh run "$room/program" >"$room/printed"
diff "$room/expected" "$room/printed" || fail "the README's program prints the lines marked >"

# The self-check from where it is installed, with the words of its page; here without DESTDIR.
make -s --no-print-directory install-files PREFIX="$room/plain" || fail 'make install-files without DESTDIR fails'
PKG_CONFIG_PATH='' PKG_CONFIG_LIBDIR="$room/plain/lib/pkgconfig"
export PKG_CONFIG_PATH PKG_CONFIG_LIBDIR
cp host/example.c "$room"
# shellcheck disable=SC2046 # lists of words
(cd "$room" && sh "$here/tests/machine/x86.sh" compile -o example example.c $(pkg-config --variable=selfcheck kelubashi) \
    $(pkg-config --cflags --libs kelubashi)) || fail 'the example host does not compile with the installed self-check'
sh tests/machine/x86.sh run "$room/example" >"$room/printed" || fail 'the example host, with the installed self-check, fails'
grep -q '^  position *km *-2252.28803786836 ' "$room/printed" || fail 'the example host prints another position'
[ "$(pkg-config --modversion kelubashi)" = "$(sed -n 's/^#define KELUBASHI_EDITION //p' include/kelubashi.h)" ] ||
    fail "the version of pkg-config is not the header's edition"
make -s --no-print-directory uninstall PREFIX="$room/plain" || fail 'make uninstall fails'
[ -z "$(find "$room/plain" ! -type d)" ] || fail "make uninstall leaves $(find "$room/plain" ! -type d)"
[ ! -e "$room/plain/share/kelubashi" ] || fail "make uninstall leaves the folder share/kelubashi"
make -s --no-print-directory uninstall PREFIX="$room/plain" || fail 'make uninstall, once more, fails'

# ---- The program and the command, against the second program's results.

sh tests/machine/x86.sh run build/tests/command/second_results <examples/orbits.elements >"$room/expected"
sh tests/machine/x86.sh run "$there/bin/propagate" examples/orbits.elements >"$room/results" 2>"$room/said"
cmp "$room/expected" "$room/results" || fail 'the installed program writes other results'
[ ! -s "$room/said" ] || fail "the installed program says: $(cat "$room/said")"
sh tests/machine/x86.sh run "$there/bin/kelubashi" results -q examples/orbits.elements >"$room/results" 2>"$room/said" || [ $? -eq 1 ]
cmp "$room/expected" "$room/results" || fail 'the installed command writes other results'
[ "$(sh tests/machine/x86.sh run "$there/bin/kelubashi" --version)" = "kelubashi, edition $(config --modversion kelubashi)" ] ||
    fail "the command's version is not the edition"

# ---- The pages.

page() {
    echo "$there/share/man/man${1##*.}/$1"
}

has() {
    grep -qx "\.SH $2" "$(page "$1")" || fail "$1 has no section $2"
}

for name in propagate.1 kelubashi.1 $(printf 'kelubashi-%s.1 ' $subcommands) kelubashi.3 kelubashi_selfcheck.3 \
    kelubashi-elements.5 kelubashi-results.5 kelubashi-rows.5; do
    has "$name" NAME
    has "$name" DESCRIPTION
    has "$name" 'SEE ALSO'
done
has propagate.1 SYNOPSIS
has propagate.1 'EXIT STATUS'
has kelubashi.3 SYNOPSIS

# The exit statuses are the same in every page of the command, and in its help.
sh tests/machine/x86.sh run "$there/bin/kelubashi" --help | sed -n 's/^  \([0-3]\)  \(.*\)/\1 \2/p' >"$room/statuses"
[ "$(wc -l <"$room/statuses")" -eq 4 ] || fail 'the help does not have four exit statuses'
for name in kelubashi $(printf 'kelubashi-%s ' $subcommands); do
    has "$name.1" SYNOPSIS
    sed -n '/^\.SH EXIT STATUS/,$p' "$(page "$name.1")" | sed -n '/^\.B [0-3]$/{s/^\.B //;N;s/\n/ /;s/\.$//;p;}' | tr A-Z a-z >"$room/listed"
    tr A-Z a-z <"$room/statuses" | diff - "$room/listed" || fail "$name.1: the exit statuses of the help are marked <, the page's >"
done

# The unit in the page: the command as it is installed by default, and no restart where the self-check failed.
sed -n '/^\[Unit\]/,/^\.EE/p' "$(page kelubashi-results.1)" | sed 's/\\-/-/g' >"$room/unit"
grep -qx 'RestartPreventExitStatus=3' "$room/unit" || fail 'the unit starts again after status 3'
grep -q '^ExecStart=/usr/local/bin/kelubashi results ' "$room/unit" || fail 'the unit does not start kelubashi results'

# The refusals of each call, each as 'call number', as the line that starts with "Refusals:" sums them up, up to
# a full stop or semicolon; 'a to b' is every number of these. In the header the line stands before the call.
summed() {
    awk '
        /^(\*\*  )?Refusals: / {
            sub(/[.;].*/, "")
            gsub(/[^0-9]*[^0-9 to][^0-9]*/, " ")
            numbers = ""
            for (i = 1; i <= NF; i++) {
                if ($i == "to") { for (j = $(i - 1) + 1; j < $(i + 1); j++) numbers = numbers " " j }
                else numbers = numbers " " $i
            }
        }
        /^\.SS / { name = $2; numbers = "" }
        /^uint64_t kelubashi1_/ { name = $2; sub(/\(.*/, "", name) }
        name != "" && numbers != "" {
            count = split(numbers, list, " ")
            for (i = 1; i <= count; i++) print name, list[i]
            numbers = ""
            name = ""
        }
    ' "$1" | sort -u
}

summed include/kelubashi.h >"$room/refusals"

# The numbers of $1's list of refusals, in its order, are those on standard input.
refuses() {
    sed -n '/^\.SH REFUSALS/,/^\.SH EXAMPLES/s/^\.B \([0-9]*\)$/\1/p' "$(page "$1")" >"$room/listed"
    sort -nu >"$room/given"
    [ -s "$room/given" ] || fail 'no refusals are found in the header'
    diff "$room/given" "$room/listed" || fail "$1: the header's refusals are marked <, the page's >"
}

cut -d ' ' -f 2 "$room/refusals" | refuses kelubashi.3
sed -n 's/kelubashi1_read //p' "$room/refusals" | grep -vx 60 | refuses kelubashi-elements.5
sed -n 's/kelubashi1_propagate //p' "$room/refusals" | grep -vx 60 | refuses kelubashi-results.5
sed -n 's/kelubashi1_check //p' "$room/refusals" | grep -vx -e 26 -e 60 | refuses kelubashi-rows.5

# And call by call.
summed "$(page kelubashi.3)" | diff "$room/refusals" - || fail 'kelubashi.3: the refusals of a call are marked < as in the header, > as in the page'

# The calls as the header has them, their words without the spaces.
awk '/^uint64_t kelubashi1_/ { on = 1 } on { print } /;/ { on = 0 }' include/kelubashi.h | tr -d ' \n' | tr ';' '\n' >"$room/header"
sed -n '/^\.SH SYNOPSIS/,/^\.SH/s/^\.BI //p' "$(page kelubashi.3)" | tr -d '" \n' | tr ';' '\n' |
    grep kelubashi1_ >"$room/synopsis"
diff "$room/header" "$room/synopsis" || fail 'kelubashi.3: the header has the calls marked <, the page those marked >'
grep -o 'KELUBASHI_[A-Z_]*' "$(page kelubashi.3)" | sort -u >"$room/constants"
while read -r constant; do
    grep -qw "$constant" include/kelubashi.h || fail "kelubashi.3: the header has no $constant"
done <"$room/constants"
for call in $calls $inline; do
    sed -n '/^\.SH NAME/,/^\.SH SYNOPSIS/p' "$(page "$call.3")" | grep -qw "$call" || fail "$call.3 does not name $call"
    grep -qx "\.SS $call" "$(page "$call.3")" || fail "$call.3 does not explain $call"
done

# The examples of the three files are P10's, byte by byte.
example() {
    sed -n 's/^ *\([0-9][0-9]*\)   \([0-9a-f]\{16\}\)   .*/\1 \2/p' "$(page "$1")" | head -n "$(($(wc -c <"$2") / 8))" >"$room/example"
    od -A d -v -t x8 -w8 "$2" | awk 'NF == 2 { print $1 + 0, $2 }' >"$room/words"
    diff "$room/words" "$room/example" || fail "$1: its example is not $2, whose words are marked <"
}

example kelubashi-elements.5 crates/propagate/data/p10.elements
example kelubashi-results.5 crates/propagate/stdout
sh tests/machine/x86.sh run build/tests/command/second_rows 0 <crates/propagate/data/p10.elements >"$room/p10.rows"
example kelubashi-rows.5 "$room/p10.rows"

set_by='not set, since this machine has no groff'
if command -v groff >/dev/null; then
    set_by='set by groff without a warning'
    for source in "$there"/share/man/man?/*; do
        groff -man -Tutf8 -ww "$source" >"$room/page" 2>"$room/said" || fail "groff does not set ${source##*/}: $(cat "$room/said")"
        [ ! -s "$room/said" ] || fail "groff says of ${source##*/}: $(cat "$room/said")"
    done
fi

echo "install: $(wc -l <"$room/there") files and no others; the README's program and the self-check, with pkg-config alone; propagate and kelubashi; the pages, $set_by; uninstalled again"
