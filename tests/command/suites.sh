#!/bin/sh
# The command's suites, one after another: suites.sh NAME KELUBASHI FAULTY, with the words that run the command
# and that run it with the faults of tests/command/faults.c.
set -eu
cd "$(dirname "$0")/../.."
for suite in subcommands rows compare; do
    sh tests/command/$suite.sh "$@"
done
