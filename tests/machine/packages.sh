#!/bin/sh
# Installs Debian's packages where root, and otherwise asks for them in one line.
#
#     packages.sh WHO WHAT LOG PACKAGE..
#
# WHO says it, WHAT does not work without them, LOG gets what was tried. Whether it works then is the caller's to see.
set -eu

who=$1 what=$2 log=$3
shift 3

if [ "$(id -u)" -ne 0 ] || ! command -v apt-get >/dev/null; then
    echo "$who: $what; as root on Debian: apt-get install $*" >&2
    exit 1
fi

get() {
    apt-get install -y -qq --no-install-recommends "$@"
}

echo "$who: installing $*"
export DEBIAN_FRONTEND=noninteractive
# a fresh machine has no lists of packages, or old ones
{ get "$@" || { apt-get update -qq && get "$@"; }; } >>"$log" 2>&1 || true
