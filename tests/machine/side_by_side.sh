#!/bin/sh
# Runs tests side by side, as many as the machine has processors: tests/machine/side_by_side.sh TEST.. Name the longest first. What a test prints stands
# in TEST.log and is shown, whole, when it ends.
set -eu
printf '%s\n' "$@" |
    xargs -P "$(getconf _NPROCESSORS_ONLN)" -I TEST sh -c \
        'sh tests/machine/x86.sh run TEST >TEST.log 2>&1; ended=$?; cat TEST.log; [ $ended -eq 0 ] || { echo "TEST failed, with status $ended"; exit 1; }'
