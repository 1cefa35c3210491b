#!/bin/sh
# Prints the program's version, as the files that it writes name it, and the commit that it was made from.
root=$(dirname -- "$0")/..
if [ -f "$root/version.txt" ]; then
    exec cat -- "$root/version.txt"
fi
library=$(grep -rhom 1 '"mcaprec [0-9][0-9.]*"' "$root/crates/chunk_writer/src" | head -n 1 | tr -d '"')
commit=$(git -C "$root" rev-parse --short=12 HEAD 2>/dev/null)
printf '%s%s\n' "${library:-mcaprec}" "${commit:+, commit $commit}"
