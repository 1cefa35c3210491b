#!/usr/bin/env bash
# Times the reading of maps of counts whose keys ascend beside maps in another order.
# The static library that C calls is a thin crate, made in a folder of its own that goes at the end.
set -e
here="$(cd "$(dirname "$0")" && pwd)"
work="$(mktemp -d)"
trap 'rm -rf "$work"' EXIT
mkdir -p "$work/crates/mcap_counts_c/src"
cp -r "$here/../crates/mcap_wire" "$work/crates/mcap_wire"
printf 'mcap_wire: byteorder\nmcap_counts_c staticlib: mcap_wire\n' >"$work/crates.txt"
cat >"$work/crates/mcap_counts_c/src/lib.rt" <<'END'
#![tactic(auto)]

/// How many counts there are at the front of a content; the largest number, where none can be read.
#[unsafe(no_mangle)]
pub extern "C" fn mcap_counts_of(content: &[u8]) -> usize {
    match mcap_wire::take_counts(content, 0) {
        Ok((counts, _end)) => counts.count(),
        Err(_) => usize::MAX,
    }
}
END
(cd "$work/crates/mcap_counts_c" && rt lib >"$work/lib.log" 2>&1) || { tail -20 "$work/lib.log"; exit 1; }
cc -O2 -o "$work/counts" "$here/counts.c" "$work/crates/mcap_counts_c/out/libmcap_counts_c.a"
"$work/counts"
