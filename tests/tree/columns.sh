#!/bin/sh
# No line of a definition, of the code, of a header or of a page is longer than 160 columns.
set -eu
cd "$(dirname "$0")/../.."
export LC_ALL=C.UTF-8     # columns are characters
longer=$(find crates/*/specs crates/*/src include man docs bench tests ./*.md -name '*.antt' -o -name '*.rt' -o -name '*.h' -o -name '*.md' -o -name '*.[135]' |
    xargs grep -nE '^.{161,}' | cut -c 1-100) || true
[ -z "$longer" ] || {
    echo "$longer"
    echo 'columns: these lines are longer than 160 columns: break them' >&2
    exit 1
}
echo 'columns: no line of definitions, code, headers or pages is longer than 160'
