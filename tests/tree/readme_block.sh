#!/bin/sh
# The lines of the README's block of this kind: its C program is c, and what that prints is text.
set -eu
cd "$(dirname "$0")/../.."
sed -n "/^\`\`\`$1\$/,/^\`\`\`\$/p" README.md | grep -v '^```'
