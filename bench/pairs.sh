#!/usr/bin/env bash
# Times the reading of maps of texts whose keys ascend beside shuffled and descending ones. Words given are numbers of pairs.
# The static library that C calls is a thin crate, made in a folder of its own that goes at the end.
set -e
here="$(cd "$(dirname "$0")" && pwd)"
work="$(mktemp -d)"
trap 'rm -rf "$work"' EXIT
mkdir -p "$work/crates/mcap_pairs_c/src"
cp -r "$here/../crates/mcap_wire" "$work/crates/mcap_wire"
printf 'mcap_wire: byteorder\nmcap_pairs_c staticlib: mcap_wire\n' >"$work/crates.txt"
cat >"$work/crates/mcap_pairs_c/src/lib.rt" <<'END'
#![tactic(auto)]

/// How many pairs there are at the front of a content; the largest number, where none can be read.
#[unsafe(no_mangle)]
pub extern "C" fn mcap_pairs_of(content: &[u8]) -> usize {
    match mcap_wire::take_pairs(content, 0) {
        Ok((pairs, _end)) => pairs.count(),
        Err(_) => usize::MAX,
    }
}
END
(cd "$work/crates/mcap_pairs_c" && rt lib >"$work/lib.log" 2>&1) || { tail -20 "$work/lib.log"; exit 1; }
cc -O2 -o "$work/pairs" "$here/pairs.c" "$work/crates/mcap_pairs_c/out/libmcap_pairs_c.a"
"$work/pairs" "$@"
