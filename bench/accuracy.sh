#!/bin/sh
# Prints the tables of accuracy.py, with the positions that build/bench/accuracy gives.
set -eu

here=$(dirname "$0")
build=$here/../build

# A python3 that has mpmath: the one on PATH, or Debian's own.
choose() {
    for python in python3 /usr/bin/python3; do
        if "$python" -c 'import mpmath' 2>/dev/null; then
            return
        fi
    done
    return 1
}

what='there is no python3 with mpmath to work out exact positions'
choose || sh "$here/../tests/machine/packages.sh" accuracy "$what" "$build/bench/packages.log" python3-mpmath
choose || {
    echo "accuracy: $what, and installing python3-mpmath did not help: build/bench/packages.log has what was tried" >&2
    exit 1
}
"$python" "$here/accuracy.py" sh "$here/../tests/machine/x86.sh" run "$build/bench/accuracy"
