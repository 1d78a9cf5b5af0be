#!/bin/sh
# Every crate is laid out as rt fmt does it. rt fmt writes, so it is run in a copy, and what it would change is told. rt ci refuses it too, when it comes to the
# crate.
set -eu
cd "$(dirname "$0")/../.."
room=$(mktemp -d)
trap 'rm -rf "$room"' EXIT

cp crates.txt "$room"
for crate in crates/*; do
    [ -d "$crate/src" ] || continue
    mkdir -p "$room/$crate"
    for part in src specs proofs; do
        [ ! -d "$crate/$part" ] || cp -R "$crate/$part" "$room/$crate"
    done
done
find "$room/crates" -mindepth 1 -maxdepth 1 | sort | xargs -P "$(getconf _NPROCESSORS_ONLN)" -I FOLDER sh -c \
    'cd "FOLDER" && rt fmt >../$(basename "FOLDER").said 2>&1 || touch ../failed' || exit 1
said=$(cd "$room/crates" && grep . ./*.said | cut -c 1-200 |
    sed "s|$room/||; s|^\./\([^/]*\)\.said:rt: formatted |crates/\1/|; s|^\./\([^/]*\)\.said:|\1: |") || true
[ -z "$said" ] && [ ! -e "$room/crates/failed" ] || {
    echo "$said"
    echo 'layout: these are not laid out: run rt fmt in their crate, and look at what it changed' >&2
    exit 1
}
echo 'layout: every crate is laid out as rt fmt does it'
