#!/bin/sh
# Compiles and runs C for x86-64, the one processor that the library is made for.
#
#     x86.sh ready                  see that both can be done here; where root, install what is missing
#     x86.sh compile WORD..         the C compiler with these words
#     x86.sh archive FILE OBJECT..  an archive of these objects
#     x86.sh run PROGRAM WORD..     the program with these words
#
# On x86-64 these are the machine's own compiler and the program itself, on aarch64 Debian's cross
# compiler and its user emulator. Link dynamically: the cross compiler's static libm is broken.
set -eu

here=$(dirname "$0")
build=$here/../../build
machine=$(uname -m)
case $machine in
x86_64) packages='gcc libc6-dev' ;;
aarch64) packages='gcc-x86-64-linux-gnu libc6-dev-amd64-cross qemu-user' ;;
*)
    echo "machine: the library runs on x86-64, and under an emulator on aarch64; this is $machine: use one of those" >&2
    exit 1
    ;;
esac

compile() {
    if [ "$machine" = aarch64 ]; then
        x86_64-linux-gnu-gcc "$@"
    elif command -v cc >/dev/null; then
        cc "$@"
    else
        gcc "$@"
    fi
}

archive() {
    if [ "$machine" = aarch64 ]; then
        x86_64-linux-gnu-ar rc "$@"
    else
        ar rc "$@"
    fi
}

run() {
    if [ "$machine" = aarch64 ]; then
        libc=$(x86_64-linux-gnu-gcc -print-file-name=libc.so.6)
        # the folder above that of the C library: programs look for lib64/ and lib/ there
        qemu-x86_64 -L "${libc%/*}/.." "$@"
    else
        "$@"
    fi
}

# A whole round, since a compiler without headers, or an emulator without the C library, is as good as none.
works() {
    printf '#include <math.h>\n#include <stdio.h>\nint main(void) { return 0; }\n' >"$build/trial.c"
    compile -o "$build/trial" "$build/trial.c" && run "$build/trial"
}

ready() {
    mkdir -p "$build"
    log=$build/machine.log
    if works >"$log" 2>&1; then
        return
    fi
    what='C for x86-64 cannot be compiled and run here'
    # shellcheck disable=SC2086 # a list of words
    sh "$here/packages.sh" machine "$what" "$log" $packages
    if ! works >>"$log" 2>&1; then
        echo "machine: $what, and installing $packages did not help: build/machine.log has what was tried" >&2
        exit 1
    fi
}

verb=${1:-}
case $verb in
ready) ready ;;
compile | archive | run)
    shift
    "$verb" "$@"
    ;;
*)
    echo 'usage: x86.sh ready | compile WORD.. | archive FILE OBJECT.. | run PROGRAM WORD..' >&2
    exit 1
    ;;
esac
