#!/usr/bin/env bash
# Times the proved crc_of beside zlib's crc32 at 64 bytes, 4 KB and 768 KiB, and prints the ratio.
# The static library that C calls is a thin crate, made in a folder of its own that goes at the end.
set -e
here="$(cd "$(dirname "$0")" && pwd)"
if ! printf '#include <zlib.h>\n' | cc -E - >/dev/null 2>&1; then
    echo "bench/crc.sh: skipped, zlib.h is not there (Debian: zlib1g-dev)"
    exit 0
fi
work="$(mktemp -d)"
trap 'rm -rf "$work"' EXIT
mkdir -p "$work/crates/mcap_crc_c/src"
cp -r "$here/../crates/mcap_crc" "$work/crates/mcap_crc"
printf 'mcap_crc:\nmcap_crc_c staticlib: mcap_crc\n' >"$work/crates.txt"
cat >"$work/crates/mcap_crc_c/src/lib.rt" <<'END'
#![tactic(auto)]

ghost use Rattle.std.specs.Prelude.{◌≡◌};
ghost use Rattle.mcap_crc.specs.Remainder.{remainder};

#[unsafe(no_mangle)]
pub extern "C" fn mcap_crc_of(bytes: &[u8]) -> u32
    ensures { result ≡ remainder bytes.now }
{
    mcap_crc::crc_of(bytes)
}
END
(cd "$work/crates/mcap_crc_c" && rt lib >"$work/lib.log" 2>&1) || { tail -20 "$work/lib.log"; exit 1; }
cc -O2 -o "$work/crc" "$here/crc.c" "$work/crates/mcap_crc_c/out/libmcap_crc_c.a" -lz
"$work/crc"
