#!/bin/sh
# The README's program compiles, runs, and prints what the README says it does.
set -eu
cd "$(dirname "$0")/../.."
mkdir -p build/readme

sh tests/tree/readme_block.sh c >build/readme/program.c
sh tests/tree/readme_block.sh text >build/readme/expected
sh tests/machine/x86.sh compile -std=c99 -Wall -Wextra -pedantic -Wconversion -Werror -Iinclude -o build/readme/program \
    build/readme/program.c build/libkelubashi.a
sh tests/machine/x86.sh run build/readme/program >build/readme/printed
diff build/readme/expected build/readme/printed ||
    { echo 'readme: the program prints the lines marked >: correct the README' >&2; exit 1; }
echo 'readme: its program prints what it says'
