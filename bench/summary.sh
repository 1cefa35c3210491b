#!/usr/bin/env bash
# Times and measures a summary of a million blocks of four channels, and times the ids of contents that are known.
# The static library that C calls is a thin crate, made in a folder of its own that goes at the end.
set -e
here="$(cd "$(dirname "$0")" && pwd)"
work="$(mktemp -d)"
trap 'rm -rf "$work"' EXIT
below="mcap_model mcap_wire rec_data chunk_build summary_write id_table"
. "$here/take_crates.sh"
take_crates "$work" $below
echo "mcap_tables_c staticlib: $below" >>"$work/crates.txt"
mkdir -p "$work/crates/mcap_tables_c/src" "$work/crates/mcap_tables_c/proofs/noted"
cat >"$work/crates/mcap_tables_c/proofs/Lib.antt" <<'END'
END
cat >"$work/crates/mcap_tables_c/proofs/noted/Invariants.antt" <<'END'
use Rattle.std.proofs.Common.{◌≤◌}
use Rattle.mcap_tables_c.proofs.noted.Given as goal

abbrev pub invariant-loop-i : goal.invariant-loop-i
invariant-loop-i l = l.summary.blocks ≤ l.i
END
cat >"$work/crates/mcap_tables_c/src/lib.rt" <<'END'
#![tactic(auto)]

ghost use Rattle.std.specs.Prelude.{List, IfOk, IfSome};
ghost use Rattle.rec_data.specs.declared.owned.Rec.{Rec};
ghost use Rattle.mcap_model.specs.Built.{IsBlock};
ghost use Rattle.chunk_build.specs.Chunker.{StandsFor};

use chunk_build::Chunker;
use id_table::{Given, IdTable};
use mcap_model::Block;
use mcap_wire::{Bytes, Memory, Pairs, PairsRef, Text};
use rec_data::{ChannelDef, Rec, SchemaDef};
use std::alloc::Global;
use summary_write::Summary;

fn put(alloc: Global, chunker: &mut Chunker, channel_id: u16) -> Result<Option<Block>, Memory>
    requires stands { (history : List Rec) × StandsFor chunker.old history }
    ensures stands { (history : List Rec) × StandsFor chunker.new history }
{
    let message = Rec::Message {
        channel_id,
        sequence: 1,
        log_time: 10,
        publish_time: 9,
        payload: Bytes::new(Vec::new(alloc)),
    };
    chunker.put(&message)
}

fn last(chunker: &mut Chunker) -> Result<Option<Block>, Memory>
    requires stands { (history : List Rec) × StandsFor chunker.old history }
    ensures block { IfOk result (λ last. IfSome last (λ b. (records : List Rec) × IsBlock b records)) }
{
    chunker.finish()
}

// A block of a message on each of four channels.
fn block(alloc: Global) -> Result<Option<Block>, Memory>
    ensures { IfOk result (λ last. IfSome last (λ b. (records : List Rec) × IsBlock b records)) }
{
    let mut chunker = Chunker::new(alloc, 67108864)?;
    let _none = put(alloc, &mut chunker, 1)?;
    let _none = put(alloc, &mut chunker, 2)?;
    let _none = put(alloc, &mut chunker, 3)?;
    let _none = put(alloc, &mut chunker, 4)?;
    last(&mut chunker)
}

fn noted(alloc: Global, blocks: u64, written: u64) -> Result<u64, Memory> {
    if blocks > 1048576 {
        return Ok(0);
    }
    let Some(b) = block(alloc)? else {
        return Ok(0);
    };
    let mut summary = Summary::new(alloc)?;
    for i in 0..blocks {
        summary.note_block(34 + 512 * i, &b)?;
    }
    if written == 0 {
        return Ok(0);
    }
    let text = summary.text(1099511627776)?;
    Ok(text.as_slice().len() as u64)
}

/// Notes so many blocks, and gives the length of the text, where it is to be written.
#[unsafe(no_mangle)]
pub extern "C" fn mcap_summary_noted(alloc: Global, blocks: u64, written: u64) -> u64 {
    match noted(alloc, blocks, written) {
        Ok(len) => len,
        Err(_) => 0,
    }
}

fn channel(alloc: Global, i: u32, schema: u64) -> Result<ChannelDef, Memory> {
    let Ok(topic) = format!(in alloc; "/topic/{i}") else {
        return Err(Memory);
    };
    let schema = match schema {
        0 => None,
        len => {
            let Ok(payload) = Vec::from_elem(alloc, 7u8, len as usize) else {
                return Err(Memory);
            };
            Some(SchemaDef {
                name: Text::copied(alloc, "pkg/Type")?,
                encoding: Text::copied(alloc, "ros1msg")?,
                payload: Bytes::new(payload),
            })
        }
    };
    Ok(ChannelDef {
        topic: Text::copied(alloc, topic.as_str())?,
        message_encoding: Text::copied(alloc, "ros1")?,
        metadata: Pairs::sorted(alloc, &PairsRef::of(&[]))?,
        schema,
    })
}

fn channels(alloc: Global, schema: u64) -> Result<Vec<ChannelDef>, Memory> {
    let mut all = Vec::new(alloc);
    for i in 0..40u32 {
        match all.push(channel(alloc, i, schema)?) {
            Ok(()) => {}
            Err(_) => return Err(Memory),
        }
    }
    Ok(all)
}

/// Declares forty contents so many times, and gives how often they were known.
#[unsafe(no_mangle)]
pub extern "C" fn mcap_contents_declared(alloc: Global, rounds: u64, schema: u64) -> u64 {
    let Ok(all) = channels(alloc, schema) else {
        return 0;
    };
    let Ok(mut table) = IdTable::new(alloc) else {
        return 0;
    };
    let mut known = 0u64;
    for _ in 0..rounds {
        for d in &all {
            if let Ok(given) = table.declare(d) {
                if let Given::Known(_) = given.channel {
                    known = known.wrapping_add(1);
                }
            }
        }
    }
    known
}

/// Declares forty contents, looks each up so many times, and gives how often it was found.
#[unsafe(no_mangle)]
pub extern "C" fn mcap_contents_found(alloc: Global, rounds: u64, schema: u64) -> u64 {
    let Ok(all) = channels(alloc, schema) else {
        return 0;
    };
    let Ok(mut table) = IdTable::new(alloc) else {
        return 0;
    };
    for d in &all {
        let _given = table.declare(d);
    }
    let mut known = 0u64;
    for _ in 0..rounds {
        for d in &all {
            if table.find(d).is_some() {
                known = known.wrapping_add(1);
            }
        }
    }
    known
}
END
(cd "$work/crates/mcap_tables_c" && rt lib >"$work/lib.log" 2>&1) || { tail -20 "$work/lib.log"; exit 1; }
# the toolchain's heap, by which what is exported allocates
heap="$(dirname "$(rt doc | head -1)")/c/liblibc_c.a"
cc -O2 -o "$work/summary" "$here/summary.c" "$work/crates/mcap_tables_c/out/libmcap_tables_c.a" "$heap"
"$work/summary"
