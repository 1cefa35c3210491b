#!/usr/bin/env bash
# Times a publish of one entry in a directory with 16 readers that look every five milliseconds, as a recording's watchers do,
# beside one without readers: the best of five runs of 100,000 publishes each. Then, on recordings of so many MiB (256) of
# messages of 1,000 and of 64 bytes of data, it times the replay of a hundredth of their time and of all of it by the file's
# blocks, as a watcher replays, beside that by the file's index, as `cat --indexed` does, on a copy of the file, best of five
# each, in turn, in one run: with a payload of its own for each message (`replay_live`, `replay_indexed`), and with lines that are
# printed into /dev/null. It needs perl. Both programs are proved and built in a folder of their own that goes at the end.
# MCAPREC names another program that records in place of the launcher.
set -e
export LC_ALL=C
here="$(cd "$(dirname "$0")" && pwd)"
mib="${1:-256}"
program="${MCAPREC:-$here/../mcaprec}"
if ! command -v perl >/dev/null; then
    echo "bench/live.sh: skipped, perl is not there (Debian: perl-base)"
    exit 0
fi
if ! [[ "$mib" =~ ^[1-9][0-9]{0,4}$ ]]; then
    echo "usage: bench/live.sh [MIB]" >&2
    exit 2
fi
work="$(mktemp -d)"
trap 'rm -rf "$work"' EXIT
cp "$here/../HANDLES" "$work/"
mkdir "$work/crates"

. "$here/take_crates.sh"

# Proves and builds a program that is built on these crates.
build() {
    local name="$1"
    shift
    take_crates "$work" "$@"
    echo "$name: $*" >>"$work/crates.txt"
    (cd "$work/crates/$name" && rt run >"$work/build.log" 2>&1) || { tail -20 "$work/build.log"; exit 1; }
}

# --- A publish beside readers ---

mkdir -p "$work/crates/live_publish/src" "$work/crates/live_publish/proofs/main"
mkdir -p "$work/crates/live_publish/proofs/publish_one" "$work/crates/live_publish/proofs/publish_all"
: >"$work/crates/live_publish/proofs/Lib.antt"
cat >"$work/crates/live_publish/src/main.rt" <<'END_OF_CODE'
//! Publishes so many entries, one a call, beside so many readers that rest so many nanoseconds between two looks, and says how
//! long the publishes took, in nanoseconds, how often a reader took entries in, and whether each reader has them all.
#![tactic(auto)]

ghost use Rattle.std.specs.Prelude.{◌≡◌, ◌≤◌, None, true, false};
ghost use Rattle.live_directory.specs.Published.{end_of};

use io_files::Stretch;
use live_directory::{Directory, Naming, Opened, Reader, open_directory};
use live_entry::Entry;
use mcap_model::End;
use std::alloc::Global;
use std::marker::Brand;
use std::sync::Wait;
use std::thread::{Parker, Threads, for_each_mut, join};
use std::time::{Clock, Duration, Instant};
use std::{env, io};

const MOST: usize = 16;

#[derive(Clone, Copy, Drop)]
struct Plan {
    readers: u32,
    blocks: u64,
    rest: u64,
}

#[derive(Drop)]
struct Watch<J: Naming> {
    reader: Reader<Stretch, J>,
    blocks: u64,
    refreshes: u64,
}

fn entry_at(offset: u64) -> Entry<Stretch> {
    Entry {
        extent: Stretch {
            from: offset,
            len: 139,
        },
        offset,
        chunk_length: 108,
        start_time: 10,
        end_time: 10,
        messages: 1,
        declared: 1,
    }
}

// Looks and rests until the end is seen.
fn follow<J: Naming, R: Wait>(rt: &R, watch: &mut Watch<J>, rest: u64) {
    let parker = Parker::new();
    for _ in rt.forever() {
        let seen = watch.reader.front();
        if seen.blocks != watch.blocks || seen.end.is_some() {
            let Ok(found) = watch.reader.refresh(rt) else {
                return;
            };
            watch.blocks = found.blocks;
            watch.refreshes = watch.refreshes.saturating_add(1);
            if found.end.is_some() {
                return;
            }
        }
        parker.park_timeout(rt, Duration::from_nanos(rest));
    }
    unreachable!()
}

fn publish_one<J: Naming, R: Wait>(
    rt: &R,
    alloc: Global,
    directory: &mut Directory<Stretch, J>,
    offset: u64,
) -> bool
    requires unsealed { end_of directory.old.shown ≡ None }
    requires first_want { directory.old.short ≡ false }
    ensures unsealed { end_of directory.new.shown ≡ None }
    ensures first_want { result ≡ true → directory.new.short ≡ false }
{
    let Ok(entries) = vec![in alloc; entry_at(offset)] else {
        return false;
    };
    match directory.publish(rt, entries) {
        Ok(_) => return true,
        Err(_) => return false,
    }
}

// Says whether memory lasted.
fn publish_all<J: Naming, R: Wait>(
    rt: &R,
    alloc: Global,
    directory: &mut Directory<Stretch, J>,
    blocks: u64,
) -> bool
    requires unsealed { end_of directory.old.shown ≡ None }
    requires first_want { directory.old.short ≡ false }
    ensures unsealed { end_of directory.new.shown ≡ None }
{
    'each: for offset in 0..blocks {
        if !publish_one(rt, alloc, directory, offset) {
            return false;
        }
    }
    return true;
}

fn nanos_since<C: Clock>(clock: &C, start: io::Result<Instant>) -> Option<u64> {
    match start {
        Ok(start) => match start.elapsed(clock) {
            Ok(took) => u64::try_from(took.as_nanos()).ok(),
            Err(_) => None,
        },
        Err(_) => None,
    }
}

// Seals in any case, so that the readers come to their end.
fn write<J: Naming, R: Wait + Clock>(
    rt: &R,
    alloc: Global,
    directory: &mut Directory<Stretch, J>,
    blocks: u64,
) -> Option<u64>
    requires unsealed { end_of directory.old.shown ≡ None }
    requires first_want { directory.old.short ≡ false }
{
    let start = Instant::now(rt);
    let whole = publish_all(rt, alloc, directory, blocks);
    let nanos = nanos_since(rt, start);
    let sealed = directory.seal(rt, End::Closed).is_ok();
    if whole && sealed { nanos } else { None }
}

fn beside<J: Naming + Send + Sync, R: Threads + Wait + Sync + Clock>(
    rt: &R,
    alloc: Global,
    directory: &mut Directory<Stretch, J>,
    watches: &mut [Watch<J>],
    plan: Plan,
) -> Option<u64>
    requires unsealed { end_of directory.old.shown ≡ None }
    requires first_want { directory.old.short ≡ false }
{
    let (_, nanos) = join(
        rt,
        || for_each_mut(rt, watches, MOST, &|_, one| follow(rt, one, plan.rest)),
        || -> Option<u64>
            requires { (end_of directory.now.shown ≡ None) × (directory.now.short ≡ false) }
        { write(rt, alloc, directory, plan.blocks) },
    );
    nanos
}

fn run_as<J: Naming + Send + Sync, R: Threads + Wait + Sync + Clock + Print>(
    rt: &R,
    alloc: Global,
    opened: Opened<Stretch>,
    plan: Plan,
) -> io::Result<()>
    requires book { opened.seen.book ≡ J.book }
    requires few { plan.readers ≤ 16 }
{
    let Ok((mut directory, readers)) = open_directory::<Stretch, J, R>(
        alloc,
        rt,
        opened,
        plan.readers,
    ) else {
        return Ok(());
    };
    let mut watches = Vec::new(alloc);
    for reader in readers {
        let watch = Watch {
            reader,
            blocks: 0,
            refreshes: 0,
        };
        let Ok(()) = watches.push(watch) else { break };
    }
    let nanos = beside(rt, alloc, &mut directory, watches.as_mut_slice(), plan);
    directory.close(rt);
    let (mut refreshes, mut whole) = (0u64, true);
    for watch in watches.iter() {
        refreshes = refreshes.saturating_add(watch.refreshes);
        whole &= watch.reader.entries().len() as u64 == plan.blocks;
    }
    match nanos {
        Some(nanos) => println!(rt; "{nanos} {refreshes} {whole}"),
        None => println!(rt; "no memory"),
    }
}

fn main(rt: HostRuntime) -> io::Result<()> {
    let mut numbers = [0u64; 3];
    let mut at = 0usize;
    for word in env::args(&rt)?.skip(1) {
        if let (Ok(number), true) = (word.parse::<u64>(), at < 3) {
            numbers[at] = number;
            at += 1;
        }
    }
    let plan = Plan {
        readers: numbers[0].min(MOST as u64) as u32,
        blocks: numbers[1],
        rest: numbers[2],
    };
    run_as::<Brand, _>(&rt, rt.alloc(), Opened::new(), plan)
}
END_OF_CODE
cat >"$work/crates/live_publish/proofs/main/Invariants.antt" <<'END_OF_PROOF'
use Rattle.live_publish.proofs.main.Given as goal

-- the history that was just opened
abbrev pub ghosts-run_as : goal.ghosts-run_as
ghosts-run_as g a = record { book = a.opened.seen.book }
END_OF_PROOF
cat >"$work/crates/live_publish/proofs/publish_one/Answers.antt" <<'END_OF_PROOF'
use Rattle.std.proofs.Common.{rules, refl}
use Rattle.live_entry.proofs.Nothing.{untold_follow}
use Rattle.live_directory.specs.Published.{entries_of}
use Rattle.live_publish.proofs.publish_one.Goals as goal

pub publish-requires-clause-follow : goal.publish-requires-clause-follow
publish-requires-clause-follow g c = untold_follow _ (λ x. refl) _
END_OF_PROOF
cat >"$work/crates/live_publish/proofs/publish_all/Invariants.antt" <<'END_OF_PROOF'
use Rattle.std.proofs.Common.{◌≡◌, None, false}
use Rattle.live_directory.specs.Published.{end_of}
use Rattle.live_publish.proofs.publish_all.Given as goal

abbrev pub invariant-each : goal.invariant-each
invariant-each g l = (end_of l.directory.shown ≡ None) × (l.directory.short ≡ false)
END_OF_PROOF
build live_publish live_directory live_entry io_files mcap_io mcap_model

# Publishes beside so many readers, and sets `best` to the nanoseconds of the fastest run.
publish() {
    local nanos refreshes whole
    best=
    for _ in 1 2 3 4 5; do
        read -r nanos refreshes whole < <("$work/crates/live_publish/out/live_publish" "$1" 100000 5000000)
        if [ "$whole" != true ]; then
            echo "bench/live.sh: not all entries were published and read" >&2
            exit 1
        fi
        if [ -z "$best" ] || [ "$nanos" -lt "$best" ]; then best=$nanos taken=$refreshes; fi
    done
}

publish 0
alone=$best
publish 16
awk -v a="$alone" -v b="$best" -v r="$taken" 'BEGIN {
    printf "a publish of one entry: alone %.2f us, with 16 readers, who took entries in %d times, %.2f us\n", a / 1e8, r, b / 1e8 }'

# --- A replay by blocks and by the index ---

mkdir -p "$work/crates/live_times/src" "$work/crates/live_times/proofs/replaying/note_untold"
: >"$work/crates/live_times/proofs/Lib.antt"
cat >"$work/crates/live_times/src/main.rt" <<'END_OF_CODE'
//! Times the replay of a range of a file's messages by the file's blocks beside that by its index. The words are the file, a
//! name for a copy of it, and the first time and the time behind the last one. Lines go to standard output, times to standard
//! error.
#![tactic(auto)]

mod replaying;

use crate::replaying::compare;
use io_files::{FileWorld, WriterSink};
use mcap_model::Range;
use std::{env, io};

fn number(word: &String) -> u64 {
    word.parse::<u64>().unwrap_or(0)
}

fn main(rt: HostRuntime) -> io::Result<()> {
    let mut words = Vec::new(rt.alloc());
    for word in env::args(&rt)?.skip(1) {
        words.push(word)?;
    }
    let mut played = None;
    if let [file, copy, start, end] = words.as_slice() {
        let range = Range {
            start: number(start),
            end: Some(number(end)),
        };
        let mut world = FileWorld::new(&rt);
        let mut sink = WriterSink::new(rt.stdout());
        let (file, copy) = (file.as_str(), copy.as_str());
        played = compare(&rt, rt.alloc(), &mut world, file, copy, range, &mut sink);
    }
    match played {
        Some(()) => Ok(()),
        None => eprintln!(rt; "the replays could not be compared"),
    }
}
END_OF_CODE
cat >"$work/crates/live_times/src/replaying.rt" <<'END_OF_CODE'
//! The same messages of one file, played by its blocks and by its index.
ghost use Rattle.live_entry.specs.Following.{EntriesFollow};

use indexed_replay::{replay_indexed, replay_kept};
use io_files::Stretch;
use live_entry::Entry;
use live_replay::{replay_blocks, replay_live};
use mcap_io::{Extent, LiveStore, LiveView, Sink, Source, Store, World};
use mcap_model::{Range, Replayed};
use std::alloc::Global;
use std::io;
use std::time::{Clock, Instant};
use summary_read::{Loaded, load};
use time_player::Printer;

const PIECE: usize = 1 << 20;

/// How often each is timed.
const RUNS: u32 = 5;

/// The least time in nanoseconds, and what was played: how many messages, and the CRC-32 of their lines.
#[derive(Clone, Copy, Drop)]
struct Best {
    nanos: u64,
    messages: u64,
    crc: u32,
}

impl Best {
    fn new() -> Best {
        Best {
            nanos: u64::MAX,
            messages: 0,
            crc: 0,
        }
    }

    fn note<C: Clock>(&mut self, clock: &C, start: Instant) -> Option<()> {
        let took = start.elapsed(clock).ok()?;
        let nanos = u64::try_from(took.as_nanos()).unwrap_or(u64::MAX);
        self.nanos = self.nanos.min(nanos);
        Some(())
    }

    fn check(&mut self, alloc: Global, replayed: Replayed) -> Option<()> {
        self.messages = replayed.shown.len() as u64;
        self.crc = Printer::new(alloc, replayed).ok()?.checksum();
        Some(())
    }
}

// Copies the bytes of the source to the store.
fn copy_all<S: Source, L: LiveStore>(alloc: Global, source: &mut S, live: &mut L) -> Option<()> {
    let mut piece = Vec::from_elem(alloc, 0u8, PIECE).ok()?;
    for _ in 0..u64::MAX {
        let count = source.read(&mut piece).ok()?;
        if count == 0 {
            return Some(());
        }
        live.append_through(&piece[..count]).ok()?;
    }
    None
}

// The entries of the blocks that the summary tells, each with about as many messages as it has. The first one is taken to declare
// all channels.
fn entries_of(alloc: Global, loaded: &Loaded) -> Option<Vec<Entry<Stretch>>> {
    let mut entries = Vec::new(alloc);
    for i in 0..loaded.chunk_indexes() {
        let index = loaded.chunk_index(i);
        let entry = Entry {
            extent: Stretch {
                from: index.chunk_start_offset,
                len: index
                    .chunk_length
                    .saturating_add(index.message_index_length),
            },
            offset: index.chunk_start_offset,
            chunk_length: index.chunk_length,
            start_time: index.message_start_time,
            end_time: index.message_end_time,
            messages: index.message_index_length / 16,
            declared: if i == 0 { 1 } else { 0 },
        };
        entries.push(entry).ok()?;
    }
    Some(entries)
}

// Extents of a file tell nothing, so any entries follow one another as far as is told.
fn note_untold(entries: &[Entry<Stretch>])
    ensures { EntriesFollow ⟦<Stretch as Extent>⟧.tells entries.now }
{}

// Plays the blocks, a payload of its own for each message.
fn time_live<X: Extent, V: LiveView<X>, C: Clock>(
    clock: &C,
    alloc: Global,
    entries: &[Entry<X>],
    view: &mut V,
    range: Range,
    best: &mut Best,
) -> Option<()>
    requires { EntriesFollow X.tells entries.now }
{
    let start = Instant::now(clock).ok()?;
    let replayed = replay_live(alloc, entries, view, range).ok()?;
    best.note(clock, start)?;
    best.check(alloc, replayed)
}

// Plays the blocks, and prints the lines.
fn time_live_lines<X: Extent, V: LiveView<X>, K: Sink, C: Clock>(
    clock: &C,
    alloc: Global,
    entries: &[Entry<X>],
    view: &mut V,
    range: Range,
    sink: &mut K,
    best: &mut Best,
) -> Option<()>
    requires { EntriesFollow X.tells entries.now }
{
    let start = Instant::now(clock).ok()?;
    let kept = replay_blocks(alloc, entries, view, range).ok()?;
    let mut text = Printer::of_kept(alloc, kept).ok()?;
    text.print(alloc, sink).ok()?;
    best.note(clock, start)
}

// Plays by the index, a payload of its own for each message.
fn time_indexed<T: Store, C: Clock>(
    clock: &C,
    alloc: Global,
    store: &mut T,
    range: Range,
    best: &mut Best,
) -> Option<()> {
    let start = Instant::now(clock).ok()?;
    let replayed = replay_indexed(alloc, store, range, None).ok()?;
    best.note(clock, start)?;
    best.check(alloc, replayed)
}

// Plays by the index, and prints the lines, as `cat --indexed` does.
fn time_indexed_lines<T: Store, K: Sink, C: Clock>(
    clock: &C,
    alloc: Global,
    store: &mut T,
    range: Range,
    sink: &mut K,
    best: &mut Best,
) -> Option<()> {
    let start = Instant::now(clock).ok()?;
    let kept = replay_kept(alloc, store, range, None).ok()?;
    let mut text = Printer::of_kept(alloc, kept).ok()?;
    text.print(alloc, sink).ok()?;
    best.note(clock, start)
}

fn tell<P: Eprint>(rt: &P, messages: u64, what: &str, live: u64, indexed: u64) -> io::Result<()> {
    eprintln!(rt; "{messages} {what} {} {}", live / 1000, indexed / 1000)
}

/// What was timed: with a payload of its own for each message, and with lines that are printed.
#[derive(Drop)]
struct Times {
    live: Best,
    indexed: Best,
    live_lines: Best,
    indexed_lines: Best,
}

// Each once, over a store that is opened anew.
fn time_each<W: World, X: Extent, V: LiveView<X>, K: Sink, C: Clock>(
    clock: &C,
    alloc: Global,
    world: &mut W,
    copy: &str,
    entries: &[Entry<X>],
    view: &mut V,
    range: Range,
    sink: &mut K,
    times: &mut Times,
) -> Option<()>
    requires { EntriesFollow X.tells entries.now }
{
    time_live(clock, alloc, entries, view, range, &mut times.live)?;
    let mut store = world.store(copy).ok()?;
    let timed = time_indexed(clock, alloc, &mut store, range, &mut times.indexed);
    world.keep_store(copy, store).ok()?;
    timed?;
    time_live_lines(
        clock,
        alloc,
        entries,
        view,
        range,
        sink,
        &mut times.live_lines,
    )?;
    let mut store = world.store(copy).ok()?;
    let timed = time_indexed_lines(
        clock,
        alloc,
        &mut store,
        range,
        sink,
        &mut times.indexed_lines,
    );
    world.keep_store(copy, store).ok()?;
    timed
}

// Times each so often, and says what was timed.
fn time_runs<W: World, X: Extent, V: LiveView<X>, K: Sink, R: Clock + Eprint>(
    rt: &R,
    alloc: Global,
    world: &mut W,
    copy: &str,
    entries: &[Entry<X>],
    view: &mut V,
    range: Range,
    sink: &mut K,
) -> Option<()>
    requires { EntriesFollow X.tells entries.now }
{
    let mut times = Times {
        live: Best::new(),
        indexed: Best::new(),
        live_lines: Best::new(),
        indexed_lines: Best::new(),
    };
    for _ in 0..RUNS {
        time_each(
            rt, alloc, world, copy, entries, view, range, sink, &mut times,
        )?;
    }
    let Times {
        live,
        indexed,
        live_lines,
        indexed_lines,
    } = times;
    if live.messages != indexed.messages || live.crc != indexed.crc {
        eprintln!(rt; "the replays differ").ok()?;
        return None;
    }
    let messages = live.messages;
    tell(rt, messages, "replay", live.nanos, indexed.nanos).ok()?;
    tell(rt, messages, "lines", live_lines.nanos, indexed_lines.nanos).ok()
}

fn play<W: World<Live = L>, L: LiveStore<Extent = Stretch>, K: Sink, R: Clock + Eprint>(
    rt: &R,
    alloc: Global,
    world: &mut W,
    file: &str,
    copy: &str,
    live: &mut L,
    range: Range,
    sink: &mut K,
) -> Option<()> {
    let mut source = world.source(file).ok()?;
    let copied = copy_all(alloc, &mut source, live);
    world.keep_source(file, source).ok()?;
    copied?;
    let mut store = world.store(file).ok()?;
    let loaded = load(alloc, &mut store);
    world.keep_store(file, store).ok()?;
    let entries = entries_of(alloc, &loaded.ok()?)?;
    note_untold(&entries);
    let mut view = live.view().ok()?;
    let timed = time_runs(rt, alloc, world, copy, &entries, &mut view, range, sink);
    world.keep_view(view);
    timed
}

/// Copies the file, and times the replay of the messages in the range by its blocks, through a view of the copy, beside that by
/// the index of the copy. Lines go to the sink.
pub fn compare<W: World<Live = L>, L: LiveStore<Extent = Stretch>, K: Sink, R: Clock + Eprint>(
    rt: &R,
    alloc: Global,
    world: &mut W,
    file: &str,
    copy: &str,
    range: Range,
    sink: &mut K,
) -> Option<()> {
    let mut live = world.live(copy).ok()?;
    let played = play(rt, alloc, world, file, copy, &mut live, range, sink);
    world.keep_live(copy, live).ok()?;
    played
}
END_OF_CODE
cat >"$work/crates/live_times/proofs/replaying/note_untold/Answers.antt" <<'END_OF_PROOF'
use Rattle.std.proofs.Common.{refl}
use Rattle.live_entry.proofs.Nothing.{untold_follow}
use Rattle.live_times.proofs.replaying.note_untold.Goals as goal

pub returns : goal.returns
returns c = untold_follow _ (λ x. refl) _
END_OF_PROOF
build live_times live_replay indexed_replay summary_read time_player live_entry io_files mcap_io mcap_model rec_index

# Writes a feed of messages of so many bytes on ten channels, a microsecond apart, and says how many.
make_feed() {
    perl - "$work/feed.mcap" "$mib" "$1" <<'END'
use strict;
my ($name, $mib, $size) = @ARGV;
my $magic = "\x89MCAP0\r\n";
sub framed { my ($op, $content) = @_; return pack('C Q<', $op, length $content) . $content; }
sub text { my ($text) = @_; return pack('V', length $text) . $text; }
open(my $file, '>:raw', $name) or die "$name: $!";
print $file $magic, framed(1, text('') . text('bench'));
for my $id (1 .. 10) {
    print $file framed(4, pack('v v', $id, 0) . text("/topic/$id") . text('') . pack('V', 0));
}
my $data = join '', map { chr($_ * 7 % 256) } 1 .. $size;
my $count = int($mib * 1024 * 1024 / (31 + $size));
for my $i (0 .. $count - 1) {
    my $time = 1_700_000_000_000_000_000 + 1000 * $i;
    print $file framed(5, pack('v V Q< Q<', 1 + $i % 10, $i, $time, $time) . $data);
}
print $file framed(15, pack('V', 0));
close $file or die "$name: $!";
print "$count\n";
END
}

# Replays the messages from that one on, as many as that, both ways.
replay() {
    local start=$((1700000000000000000 + 1000 * $1))
    local end=$((start + 1000 * $2))
    "$work/crates/live_times/out/live_times" "$work/file.mcap" "$work/copy.mcap" "$start" "$end" 2>"$work/times" >/dev/null
    if ! grep -q ' replay ' "$work/times"; then
        cat "$work/times" >&2
        exit 1
    fi
    awk -v s="$size" '{ printf "%8d %9d %7s %9.2f ms %9.2f ms %6.2f\n", s, $1, $2, $3 / 1e3, $4 / 1e3, $4 / $3 }' "$work/times"
}

# As the launcher does for `cat`.
. "$here/../.ci/memory"
printf '%8s %9s %7s %12s %12s %6s\n' data messages kind blocks index ratio
for size in 1000 64; do
    count="$(make_feed "$size")"
    "$program" record --lossless "$work/file.mcap" "$work/feed.mcap" >/dev/null
    rm -f "$work/feed.mcap"
    replay $((count / 2)) $((count / 100))
    replay 0 "$count"
done
