#!/bin/sh
# The headers and the host programs are good C++ too. Nothing is linked or run, so any C++ compiler of
# this machine will do. That they are good C is seen where they are compiled as C.
set -eu
cd "$(dirname "$0")/../.."

check() {
    "$compiler" -std=c++11 -Wall -Wextra -pedantic -Wconversion -Werror -Iinclude -fsyntax-only -x c++ "$1"
}

for compiler in c++ g++ clang++; do
    if command -v "$compiler" >/dev/null; then
        printf '#include "kelubashi.h"\n#include "kelubashi_selfcheck.h"\n' | check -
        for host in host/*.c; do
            check "$host"
        done
        echo "header: both are good C++, and so are host/*.c ($compiler)"
        exit
    fi
done
echo 'header: not tried as C++, since this machine has no C++ compiler'
