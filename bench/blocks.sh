#!/usr/bin/env bash
# Times the proved building of blocks of 768 KiB from framed messages beside a plain copy and the CRC of the same bytes, for
# messages of 1,000 and of 64 bytes, and prints the ratio and the messages a second.
# The static library that C calls is a thin crate, made in a folder of its own that goes at the end.
set -e
here="$(cd "$(dirname "$0")" && pwd)"
kit="$(dirname "$(dirname "$(readlink -f "$(command -v rt)")")")"
if [ ! -f "$kit/c/liblibc_c.a" ]; then
    echo "bench/blocks.sh: skipped, the kit has no c/liblibc_c.a"
    exit 0
fi
work="$(mktemp -d)"
trap 'rm -rf "$work"' EXIT
below="chunk_build mcap_model mcap_wire mcap_crc rec_data"
. "$here/take_crates.sh"
take_crates "$work" $below
echo "mcap_blocks_c staticlib: $below" >>"$work/crates.txt"
mkdir -p "$work/crates/mcap_blocks_c/src"
cat >"$work/crates/mcap_blocks_c/src/lib.rt" <<'END_OF_CRATE'
#![tactic(auto)]

ghost use Rattle.std.specs.Prelude.{◌≡◌, ◌≤◌};
ghost use Rattle.mcap_crc.specs.Remainder.{remainder};
ghost use Rattle.rec_data.specs.declared.owned.Rec.{Rec};
ghost use Rattle.chunk_build.specs.Chunker.{AreFramed};

use chunk_build::Chunker;
use mcap_wire::Memory;
use std::alloc::Global;

// Puts a record, and says how long the block is that this closes, or 0.
fn put(chunker: &mut Chunker, record: &[u8]) -> Result<u64, Memory>
    requires { (r : Rec) × AreFramed record.now r }
{
    match chunker.put_framed(record) {
        Ok(Some(block)) => {
            let length = block.bytes.as_slice().len() as u64;
            chunker.give_back(block.bytes.into_vec());
            return Ok(length);
        }
        Ok(None) => return Ok(0),
        Err(memory) => return Err(memory),
    }
}

/// The length of the blocks of two framed records that take turns so many times, or 0 where memory lacks.
#[unsafe(no_mangle)]
pub extern "C" fn mcap_blocks_of(
    alloc: Global,
    first: &[u8],
    second: &[u8],
    size: u64,
    turns: u64,
) -> u64
    requires some { 1 ≤ size }
    requires within { size ≤ 67108864 }
    requires first { (r : Rec) × AreFramed first.now r }
    requires second { (r : Rec) × AreFramed second.now r }
{
    let mut chunker = match Chunker::new(alloc, size) {
        Ok(chunker) => chunker,
        Err(_) => return 0,
    };
    let mut total = 0u64;
    for _ in 0..turns {
        match put(&mut chunker, first) {
            Ok(length) => total = total.wrapping_add(length),
            Err(_) => return 0,
        }
        match put(&mut chunker, second) {
            Ok(length) => total = total.wrapping_add(length),
            Err(_) => return 0,
        }
    }
    return total;
}

#[unsafe(no_mangle)]
pub extern "C" fn mcap_crc_of(bytes: &[u8]) -> u32
    ensures { result ≡ remainder bytes.now }
{
    mcap_crc::crc_of(bytes)
}
END_OF_CRATE
(cd "$work/crates/mcap_blocks_c" && rt lib >"$work/lib.log" 2>&1) || { tail -20 "$work/lib.log"; exit 1; }
cc -O2 -o "$work/blocks" "$here/blocks.c" "$work/crates/mcap_blocks_c/out/libmcap_blocks_c.a" "$kit/c/liblibc_c.a"
"$work/blocks"
