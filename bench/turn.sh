#!/usr/bin/env bash
# Times messages of 64 bytes that are published at a desk, and by a turn at such a desk that nobody else wants, on one thread,
# best of five each; prints the nanoseconds of a message and what the turn adds. The program is a thin crate, which is proved and
# built in a folder of its own that goes at the end.
set -e
export LC_ALL=C
here="$(cd "$(dirname "$0")" && pwd)"
work="$(mktemp -d)"
trap 'rm -rf "$work"' EXIT
messages=20000000

below="buffer_swap history_ids record_core record_cache rec_data mcap_wire"
. "$here/take_crates.sh"
take_crates "$work" $below
cp "$here/../HANDLES" "$work/"
echo "turn_times: $below" >>"$work/crates.txt"
program="$work/crates/turn_times"
mkdir -p "$program/src" "$program/proofs/channel" "$program/proofs/by_desk" "$program/proofs/by_turn"
: >"$program/proofs/Lib.antt"
cat >"$program/proofs/channel/Answers.antt" <<'END_OF_PROOF'
use Rattle.std.proofs.Common.{List, ℕ, [], length, ap, subst, arith}
use Rattle.std.specs.Prelude.{IsPermutation}
use Rattle.record_core.proofs.Sizes.{length-sorted}
use Rattle.turn_times.proofs.channel.Goals as goal

pub returns : goal.returns
returns c =
    let P : List (List ℕ × List ℕ) → Type 0 = λ l. IsPermutation l c.in_ok-metadata.metadata in
    let moved : IsPermutation [] c.in_ok-metadata.metadata = subst P c.of.ensures c.in_ok-metadata.ensures in
    record {
      schema = tt;
      topic = omega (arith, ap length c.in_ok-topic.ensures);
      encoding = omega (arith, ap length c.in_ok-message_encoding.ensures);
      metadata = omega (arith, length-sorted [] c.in_ok-metadata.metadata moved);
    }
END_OF_PROOF
cat >"$program/proofs/by_desk/Invariants.antt" <<'END_OF_PROOF'
use Rattle.std.proofs.Common.{◌≡◌, []}
use Rattle.turn_times.proofs.by_desk.Given as goal

abbrev pub invariant-messages : goal.invariant-messages
invariant-messages l = l.spare ≡ record { limit = l.desk.limit; records = [] }
END_OF_PROOF
cat >"$program/proofs/by_turn/Invariants.antt" <<'END_OF_PROOF'
use Rattle.std.proofs.Common.{◌≡◌, []}
use Rattle.turn_times.proofs.by_turn.Given as goal

abbrev pub invariant-messages : goal.invariant-messages
invariant-messages g l = l.spare ≡ record { limit = l.drain.seat.me.0.pass.limit; records = [] }
END_OF_PROOF
cat >"$program/src/main.rt" <<'END_OF_CRATE'
//! Publishes messages of 64 bytes at a desk, or with a word by a turn that nobody else wants.
#![tactic(auto)]

ghost use Rattle.std.specs.Prelude.{◌≡◌, ◌≤◌, [], IfOk};
ghost use Rattle.history_ids.specs.DeclarationFits.{DefFits};

use buffer_swap::{Drain, Publisher, Turn};
use mcap_wire::{Memory, Pairs, PairsRef, Text};
use rec_data::ChannelDef;
use record_cache::Cache;
use record_core::{CallRefused, Desk, NewMessage};
use std::alloc::Global;
use std::env;
use std::process::ExitCode;
use std::sync::Wait;

const MESSAGES: u64 = 20_000_000;

const LIMIT: u64 = 1_048_576;

// A channel without a topic, a schema and metadata.
fn channel(alloc: Global) -> Result<ChannelDef, Memory>
    ensures { IfOk result DefFits }
{
    let topic = Text::copied(alloc, "")?;
    let message_encoding = Text::copied(alloc, "")?;
    let metadata = Pairs::sorted(alloc, &PairsRef::of(&[]))?;
    Ok(ChannelDef {
        topic,
        message_encoding,
        metadata,
        schema: None,
    })
}

// Publishes a message, and swaps the buffer first where it is full. The buffer that is given back is empty.
fn publish(desk: &mut Desk, spare: Cache, message: &NewMessage<'_>) -> Result<Cache, Memory>
    requires { spare ≡ record { limit = desk.old.limit; records = [] } }
    ensures { IfOk result (λ empty. empty ≡ record { limit = desk.new.limit; records = [] }) }
{
    match desk.publish(message) {
        Ok(_) => return Ok(spare),
        Err(CallRefused::Full { .. }) => {}
        Err(_) => return Err(Memory),
    }
    match desk.swap(spare) {
        Ok(full) => {
            let mut empty = full;
            empty.clear();
            match desk.publish(message) {
                Ok(_) => return Ok(empty),
                Err(_) => return Err(Memory),
            }
        }
        Err(_) => return Err(Memory),
    }
}

fn by_desk(alloc: Global, limit: u64, messages: u64, message: &NewMessage<'_>) -> Result<u64, Memory>
    requires bounded { limit ≤ 1073741824 }
{
    let mut desk = Desk::open(alloc, limit)?;
    let mut spare = Cache::new(alloc, limit)?;
    let channel = channel(alloc)?;
    match desk.declare(&channel) {
        Ok(_) => {}
        Err(_) => return Err(Memory),
    }
    'messages: for _ in 0..messages {
        spare = publish(&mut desk, spare, message)?;
    }
    return Ok(desk.count());
}

// The same by a turn.
fn publish_shared<R: Wait>(
    rt: &R,
    publisher: &mut Publisher<'_>,
    drain: &mut Drain<'_>,
    spare: Cache,
    message: &NewMessage<'_>,
) -> Result<Cache, Memory>
    requires { spare ≡ record { limit = drain.old.seat.me.0.pass.limit; records = [] } }
    ensures { IfOk result (λ empty. empty ≡ record { limit = drain.new.seat.me.0.pass.limit; records = [] }) }
{
    match publisher.publish(rt, message) {
        Ok(_) => return Ok(spare),
        Err(CallRefused::Full { .. }) => {}
        Err(_) => return Err(Memory),
    }
    match drain.swap(rt, spare) {
        Ok(full) => {
            let mut empty = full;
            empty.clear();
            match publisher.publish(rt, message) {
                Ok(_) => return Ok(empty),
                Err(_) => return Err(Memory),
            }
        }
        Err(_) => return Err(Memory),
    }
}

fn by_turn<R: Wait>(rt: &R, alloc: Global, limit: u64, messages: u64, message: &NewMessage<'_>) -> Result<u64, Memory>
    requires some { 1 ≤ limit }
    requires bounded { limit ≤ 1073741824 }
{
    let desk = Desk::open(alloc, limit)?;
    let mut turn = Turn::open(alloc, desk)?;
    let (mut control, mut drain) = turn.start();
    let mut publisher = control.publisher();
    let mut spare = Cache::new(alloc, limit)?;
    let channel = channel(alloc)?;
    match publisher.declare(rt, &channel) {
        Ok(_) => {}
        Err(_) => return Err(Memory),
    }
    'messages: for _ in 0..messages {
        spare = publish_shared(rt, &mut publisher, &mut drain, spare, message)?;
    }
    return Ok(messages);
}

fn main(rt: HostRuntime) -> ExitCode {
    let alloc = rt.alloc();
    let payload = [7u8; 64];
    let message = NewMessage {
        channel: 1,
        sequence: 1,
        log_time: 10,
        publish_time: 9,
        payload: &payload,
    };
    let mut words = 0u32;
    match env::args(&rt) {
        Ok(args) => {
            for _word in args.skip(1) {
                words = words.saturating_add(1);
            }
        }
        Err(_) => return ExitCode::from(3),
    }
    let done = if words == 0 {
        by_desk(alloc, LIMIT, MESSAGES, &message)
    } else {
        by_turn(&rt, alloc, LIMIT, MESSAGES, &message)
    };
    match done {
        Ok(_) => ExitCode::from(0),
        Err(_) => ExitCode::from(1),
    }
}
END_OF_CRATE
(cd "$program" && rt run >"$work/run.log" 2>&1) || { tail -20 "$work/run.log"; exit 1; }

# Runs the program five times, and sets `best` to the microseconds of the fastest.
time_best() {
    local start took
    best=
    for _ in 1 2 3 4 5; do
        start=${EPOCHREALTIME/./}
        "$program/out/turn_times" "$@"
        took=$((${EPOCHREALTIME/./} - start))
        if [ -z "$best" ] || [ "$took" -lt "$best" ]; then best=$took; fi
    done
}

time_best
desk=$best
time_best turn
awk -v desk="$desk" -v turn="$best" -v n="$messages" 'BEGIN {
    printf "by the desk %.1f ns a message, by the turn %.1f, which adds %.1f\n", desk * 1000 / n, turn * 1000 / n, (turn - desk) * 1000 / n
}'
