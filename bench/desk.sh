#!/usr/bin/env bash
# Times the proved desk, which takes messages into a buffer that is swapped for an empty one whenever it is full, beside a
# plain copy of the same framed bytes, for messages of 1,000 and of 64 bytes; prints the ratio and the messages a second.
# The static library that C calls is a thin crate, made in a folder of its own that goes at the end.
set -e
here="$(cd "$(dirname "$0")" && pwd)"
kit="$(dirname "$(dirname "$(readlink -f "$(command -v rt)")")")"
if [ ! -f "$kit/c/liblibc_c.a" ]; then
    echo "bench/desk.sh: skipped, the kit has no c/liblibc_c.a"
    exit 0
fi
work="$(mktemp -d)"
trap 'rm -rf "$work"' EXIT
below="history_ids record_core record_cache rec_data mcap_wire"
. "$here/take_crates.sh"
take_crates "$work" $below
echo "mcap_desk_c staticlib: $below" >>"$work/crates.txt"
mkdir -p "$work/crates/mcap_desk_c/src" "$work/crates/mcap_desk_c/proofs/channel" "$work/crates/mcap_desk_c/proofs/mcap_desk_of"
: >"$work/crates/mcap_desk_c/proofs/Lib.antt"
cat >"$work/crates/mcap_desk_c/proofs/channel/Answers.antt" <<'END_OF_PROOF'
use Rattle.std.proofs.Common.{List, ℕ, [], length, ap, subst, arith}
use Rattle.std.specs.Prelude.{IsPermutation}
use Rattle.record_core.proofs.Sizes.{length-sorted}
use Rattle.mcap_desk_c.proofs.channel.Goals as goal

pub returns : goal.returns
returns c =
    let P : List (List ℕ × List ℕ) → Type 0 = λ l. IsPermutation l c.in_ok-metadata.metadata in
    let moved : IsPermutation [] c.in_ok-metadata.metadata = subst P c.of.ensures c.in_ok-metadata.ensures in
    record {
      schema = tt;
      topic = omega (arith, ap length c.in_ok-topic.ensures);
      encoding = omega (arith, ap length c.in_ok-message_encoding.ensures);
      metadata = omega (arith, length-sorted [] c.in_ok-metadata.metadata moved);
    }
END_OF_PROOF
cat >"$work/crates/mcap_desk_c/proofs/mcap_desk_of/Invariants.antt" <<'END_OF_PROOF'
use Rattle.std.proofs.Common.{◌≡◌, []}
use Rattle.mcap_desk_c.proofs.mcap_desk_of.Given as goal

abbrev pub invariant-messages : goal.invariant-messages
invariant-messages l = l.spare ≡ record { limit = l.desk.limit; records = [] }
END_OF_PROOF
cat >"$work/crates/mcap_desk_c/src/lib.rt" <<'END_OF_CRATE'
#![tactic(auto)]

ghost use Rattle.std.specs.Prelude.{◌≡◌, ◌≤◌, [], IfOk};
ghost use Rattle.history_ids.specs.DeclarationFits.{DefFits};

use mcap_wire::{Memory, Pairs, PairsRef, Text};
use rec_data::ChannelDef;
use record_cache::Cache;
use record_core::{CallRefused, Desk, NewMessage};
use std::alloc::Global;

// A channel without a topic, a schema and metadata.
fn channel(alloc: Global) -> Result<ChannelDef, Memory>
    ensures { IfOk result DefFits }
{
    let topic = Text::copied(alloc, "")?;
    let message_encoding = Text::copied(alloc, "")?;
    let metadata = Pairs::sorted(alloc, &PairsRef::of(&[]))?;
    Ok(ChannelDef {
        topic,
        message_encoding,
        metadata,
        schema: None,
    })
}

// Publishes a message, and swaps the buffer first where it is full. The buffer that is given back is empty.
fn publish(desk: &mut Desk, spare: Cache, message: &NewMessage<'_>) -> Result<Cache, Memory>
    requires { spare ≡ record { limit = desk.old.limit; records = [] } }
    ensures { IfOk result (λ empty. empty ≡ record { limit = desk.new.limit; records = [] }) }
{
    match desk.publish(message) {
        Ok(_) => return Ok(spare),
        Err(CallRefused::Full { .. }) => {}
        Err(_) => return Err(Memory),
    }
    match desk.swap(spare) {
        Ok(full) => {
            let mut empty = full;
            empty.clear();
            match desk.publish(message) {
                Ok(_) => return Ok(empty),
                Err(_) => return Err(Memory),
            }
        }
        Err(_) => return Err(Memory),
    }
}

/// How many records a desk accepted, of which so many are messages with that data; or 0 where memory lacks.
#[unsafe(no_mangle)]
pub extern "C" fn mcap_desk_of(alloc: Global, payload: &[u8], limit: u64, messages: u64) -> u64
    requires { limit ≤ 1073741824 }
{
    let (mut desk, mut spare) = match (Desk::open(alloc, limit), Cache::new(alloc, limit)) {
        (Ok(desk), Ok(spare)) => (desk, spare),
        _ => return 0,
    };
    let channel = match channel(alloc) {
        Ok(channel) => channel,
        Err(_) => return 0,
    };
    match desk.declare(&channel) {
        Ok(_) => {}
        Err(_) => return 0,
    }
    let message = NewMessage {
        channel: 1,
        sequence: 1,
        log_time: 10,
        publish_time: 9,
        payload,
    };
    'messages: for _ in 0..messages {
        spare = match publish(&mut desk, spare, &message) {
            Ok(empty) => empty,
            Err(_) => return 0,
        };
    }
    return desk.count();
}
END_OF_CRATE
(cd "$work/crates/mcap_desk_c" && rt lib >"$work/lib.log" 2>&1) || { tail -20 "$work/lib.log"; exit 1; }
cc -O2 -o "$work/desk" "$here/desk.c" "$work/crates/mcap_desk_c/out/libmcap_desk_c.a" "$kit/c/liblibc_c.a"
"$work/desk"
