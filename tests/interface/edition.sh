#!/bin/sh
# A program built with the header of another edition does not link, and the edition alone is why:
# it compiles, every entry point is missing, nothing else is, and the same program links with this edition.
set -eu
cd "$(dirname "$0")/../.."
export LC_ALL=C     # the linker's words are read below

entries=$(grep -o 'kelubashi1_[a-z]*' include/kelubashi.h | sort -u)
grep -qx '#define KELUBASHI_EDITION 1' include/kelubashi.h ||
    { echo "edition: KELUBASHI_EDITION is not the edition in the calls' names" >&2; exit 1; }

# A folder with the header and a program that holds every entry point, both of edition $1.
write() {
    mkdir -p "build/edition$1"
    sed "s/kelubashi1_/kelubashi$1_/g" include/kelubashi.h >"build/edition$1/kelubashi.h"
    {
        echo '#include "kelubashi.h"'
        echo 'void (*entries[])(void) = {'
        echo "$entries" | sed "s/kelubashi1_\(.*\)/    (void (*)(void))kelubashi$1_\1,/"
        echo '};'
        echo 'int main(void) { return 0; }'
    } >"build/edition$1/program.c"
    sh tests/machine/x86.sh compile -std=c99 -Wall -Wextra -pedantic -Werror -I"build/edition$1" \
        -c -o "build/edition$1/program.o" "build/edition$1/program.c"
}

link() {
    sh tests/machine/x86.sh compile -o "build/edition$1/program" "build/edition$1/program.o" build/libkelubashi.a \
        >"build/edition$1/link.log" 2>&1
}

fail() {
    echo "edition: $1; see build/edition$2/link.log" >&2
    exit 1
}

write 1
link 1 || fail "a program of the library's own edition does not link" 1
write 2
if link 2; then
    fail "a program of edition 2 links: the library's names have to carry edition 1 only" 2
fi
missing=$(sed -n "s/.*undefined reference to .\(.*\)'.*/\1/p" build/edition2/link.log | sort -u)
[ "$missing" = "$(echo "$entries" | sed 's/kelubashi1_/kelubashi2_/')" ] ||
    fail "a program of edition 2 should want its own entry points and nothing else" 2
echo "edition: a program of edition 2 compiles and does not link: all $(echo "$entries" | wc -l) entry points are missing"
