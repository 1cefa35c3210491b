#!/usr/bin/env bash
# Times the proved Scanner over 500 MB in memory: messages of 1,000 and of 64 bytes of data, in chunks of 768 KiB with
# checksums, and prints the ratio to a memcpy of the same bytes in the same run. It takes 1 GB of memory.
# The static library that C calls is a thin crate, made in a folder of its own that goes at the end.
set -e
here="$(cd "$(dirname "$0")" && pwd)"
work="$(mktemp -d)"
trap 'rm -rf "$work"' EXIT
mkdir -p "$work/crates/mcap_scan_c/src"
. "$here/take_crates.sh"
take_crates "$work" mcap_scan mcap_io
echo 'mcap_scan_c staticlib: mcap_scan mcap_io' >>"$work/crates.txt"
cat >"$work/crates/mcap_scan_c/src/lib.rt" <<'END_OF_CRATE'
#![tactic(auto)]

ghost use Rattle.std.specs.Prelude.{Some};

use mcap_io::{Failed, Source};
use mcap_scan::{Scanner, Step};
use std::alloc::Global;

// The bytes that are left of a stretch of memory.
#[derive(Drop)]
struct Stretch<'a> {
    left: &'a [u8],
}

impl<'a> Source for Stretch<'a> {
    ghost state = { λ s. record { left = Some s.left.now; faults = 0 } };

    ghost stays = { λ _ _. Unit {0} };

    ghost stays_so = { λ _. tt };

    ghost stays_on = { λ _ _ _ _ _. tt };

    fn read(&mut self, out: &mut [u8]) -> Result<usize, Failed> {
        let n = self.left.len().min(out.len());
        let (front, rest) = self.left.split_at(n);
        out[..n].copy_from_slice(front);
        self.left = rest;
        Ok(n)
    }

    fn faults(&self) -> u64 {
        0
    }
}

/// How many records a scan gives up to and with the Data End; the largest number, where it doesn't come to one.
#[unsafe(no_mangle)]
pub extern "C" fn mcap_scan_count(alloc: Global, bytes: &[u8]) -> u64 {
    let Ok(mut scanner) = Scanner::new(alloc, Stretch { left: bytes }) else {
        return u64::MAX;
    };
    for records in 0..u64::MAX {
        match scanner.advance() {
            Step::Record { op: _, offset: _ } => {}
            Step::End { offset: _ } => return records,
            Step::Refused => return u64::MAX,
        }
    }
    u64::MAX
}
END_OF_CRATE
(cd "$work/crates/mcap_scan_c" && rt lib >"$work/lib.log" 2>&1) || { tail -20 "$work/lib.log"; exit 1; }
# The allocator that the library calls lies beside the kit's first page.
cc -O2 -o "$work/scan" "$here/scan.c" "$work/crates/mcap_scan_c/out/libmcap_scan_c.a" "$(dirname "$(rt doc)")/c/liblibc_c.a"
"$work/scan"
