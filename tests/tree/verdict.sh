#!/bin/sh
# The verdict: rt ci, with no names, over the tree as it stands. It proves every crate, tries the wrong programs of the gate and runs the programs; what it
# proved of the same files on this machine it takes again. A wrong program of the gate that rt could not try fails too. Its own last line is kept in
# build/verdict and not shown yet: it is the gate's last line, once the tests behind it have passed.
set -eu
cd "$(dirname "$0")/../.."
mkdir -p build
: >build/verdict
{ rt ci 2>&1 && echo 'rt ci: status 0'; } | tee build/rt-ci.log | sed -u -e '/^rt ci: status 0$/d' -e '/^[0-9]* passed, [0-9]* failed$/d'
if [ "$(tail -n 1 build/rt-ci.log)" != 'rt ci: status 0' ]; then
    tail -n 1 build/rt-ci.log
    echo 'verdict: rt ci has not passed: build/rt-ci.log has what it said' >&2
    exit 1
fi
sed -i '$d' build/rt-ci.log
grep -q '^rt: ok;' build/rt-ci.log || {
    echo 'verdict: rt ci does not say that all is well: build/rt-ci.log has what it said' >&2
    exit 1
}
if grep '^rt: ok.*, [1-9][0-9]* bad\([;,].*\)*$' build/rt-ci.log; then
    grep 'BAD EDIT' build/rt-ci.log
    echo 'verdict: these wrong programs of the gate cannot be tried: each says nothing of a promise until it is mended' >&2
    exit 1
fi
tail -n 1 build/rt-ci.log | grep -E '^[1-9][0-9]* passed, 0 failed$' >build/verdict || {
    echo 'verdict: rt ci ends without its line of what passed: build/rt-ci.log has what it said' >&2
    exit 1
}
echo 'verdict: rt ci has passed; its last line follows when the tests have passed too'
