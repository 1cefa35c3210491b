#!/usr/bin/env bash
# Refuses memory to programs, one allocation after another, and looks at what they leave: a writer of a directory beside two
# readers, with one allocation refused and with two; and recordings of the program with two watchers, likewise. The refusals are
# made by a library that stands in front of the C library's allocator, so it needs a C compiler, and perl. The first program is
# proved and built in a folder of its own that goes at the end. MCAPREC names another recorder in place of this checkout's.
set -e
export LC_ALL=C
here="$(cd "$(dirname "$0")" && pwd)"
for tool in cc perl; do
    if ! command -v "$tool" >/dev/null; then
        echo "tests/refused_memory.sh: skipped, $tool is not there"
        exit 0
    fi
done
room="$(mktemp -d)"
trap 'rm -rf "$room"' EXIT
wrong=0

cat >"$room/refusing.c" <<'END_OF_C'
// Refuses the allocations of a process whose numbers REFUSED names, and puts a byte into the file REFUSED_TOLD for each.
#define _GNU_SOURCE
#include <errno.h>
#include <fcntl.h>
#include <stdatomic.h>
#include <stdlib.h>
#include <unistd.h>

extern void *__libc_malloc(size_t size);
extern void *__libc_realloc(void *block, size_t size);

static atomic_ulong made;
static unsigned long first, second;
static const char *told;

__attribute__((constructor)) static void begin(void) {
    const char *numbers = getenv("REFUSED");
    told = getenv("REFUSED_TOLD");
    if (numbers != NULL && told != NULL) {
        char *rest;
        first = strtoul(numbers, &rest, 10);
        second = strtoul(rest, NULL, 10);
        atomic_store(&made, 0);
    }
}

static int is_refused(void) {
    unsigned long number = atomic_fetch_add(&made, 1) + 1;
    if (number != first && number != second) {
        return 0;
    }
    int file = open(told, O_WRONLY | O_CREAT | O_APPEND, 0600);
    if (file >= 0) {
        ssize_t put = write(file, "x", 1);
        (void)put;
        close(file);
    }
    errno = ENOMEM;
    return 1;
}

void *malloc(size_t size) {
    return is_refused() ? NULL : __libc_malloc(size);
}

void *realloc(void *block, size_t size) {
    return is_refused() ? NULL : __libc_realloc(block, size);
}
END_OF_C
cc -O2 -shared -fPIC -o "$room/refusing.so" "$room/refusing.c"

# --- A directory ---

mkdir -p "$room/crates/refused_publish/src" "$room/crates/refused_publish/proofs/main"
mkdir -p "$room/crates/refused_publish/proofs/publish_one" "$room/crates/refused_publish/proofs/hand_in"
mkdir -p "$room/crates/refused_publish/proofs/seal"
: >"$room/crates/refused_publish/proofs/Lib.antt"
cp "$here/../HANDLES" "$room/"
below="live_directory live_entry io_files mcap_io mcap_model"
. "$here/../bench/take_crates.sh"
take_crates "$room" $below
echo "refused_publish: $below" >>"$room/crates.txt"
cat >"$room/crates/refused_publish/src/main.rt" <<'END_OF_CODE'
//! Publishes entries beside two readers and seals, though memory may lack once, and says how that went. A front, entries or a
//! seal that aren't as they are to be end it with an error.
#![tactic(auto)]

ghost use Rattle.std.specs.Prelude.{◌≡◌, None, Some, false};
ghost use Rattle.live_directory.specs.Published.{end_of};

use io_files::Stretch;
use live_directory::{Directory, Front, Naming, Note, Opened, Reader, open_directory};
use live_entry::Entry;
use mcap_model::End;
use std::alloc::Global;
use std::io;
use std::marker::Brand;
use std::sync::Wait;

const ENTRIES: u64 = 9;

/// How it went: so many entries were handed in, whether a publish lacked memory, and how many seals and refreshes did.
#[derive(Clone, Copy, Drop)]
struct Told {
    handed: u64,
    pends: bool,
    seals: u64,
    refreshes: u64,
    right: bool,
}

fn entry_at(offset: u64) -> Entry<Stretch> {
    Entry {
        extent: Stretch {
            from: offset,
            len: 139,
        },
        offset,
        chunk_length: 108,
        start_time: 10,
        end_time: 10,
        messages: 1,
        declared: 1,
    }
}

fn front(blocks: u64, end: Option<End>) -> Front {
    Front { blocks, end }
}

// Whether these are the first entries, as many as that.
fn are_first(entries: &[Entry<Stretch>], count: u64) -> bool {
    let mut offset = 0u64;
    for entry in entries {
        if entry.offset != offset || entry.extent.from != offset || entry.extent.len != 139 {
            return false;
        }
        offset = offset.wrapping_add(1);
    }
    entries.len() as u64 == count
}

// A reader finds so many blocks and that end, and holds their entries; where memory lacks it holds what it held.
fn look<J: Naming, R: Wait>(
    rt: &R,
    reader: &mut Reader<Stretch, J>,
    blocks: u64,
    end: Option<End>,
    told: &mut Told,
) {
    let held = reader.entries().len() as u64;
    told.right &= reader.front() == front(blocks, end);
    match reader.refresh(rt) {
        Ok(found) => {
            told.right &= found == front(blocks, end) && are_first(reader.entries(), blocks);
        }
        Err(_) => {
            told.refreshes = told.refreshes.saturating_add(1);
            told.right &= are_first(reader.entries(), held);
            told.right &= reader.front() == front(blocks, end);
        }
    }
}

// Hands an entry in, and says whether that lacked memory; or that memory lacked for the entry.
fn publish_one<J: Naming, R: Wait>(
    rt: &R,
    alloc: Global,
    directory: &mut Directory<Stretch, J>,
    offset: u64,
) -> Option<bool>
    requires unsealed { end_of directory.old.shown ≡ None }
    requires first_want { directory.old.short ≡ false }
    ensures unsealed { end_of directory.new.shown ≡ None }
    ensures first_want { result ≡ Some false → directory.new.short ≡ false }
{
    let Ok(entries) = vec![in alloc; entry_at(offset)] else {
        return None;
    };
    match directory.publish(rt, entries) {
        Ok(_) => return Some(false),
        Err(_) => return Some(true),
    }
}

// Hands entries in, one a call, until memory lacks. The first reader looks behind each, the second one behind every third.
fn hand_in<J: Naming, R: Wait>(
    rt: &R,
    alloc: Global,
    directory: &mut Directory<Stretch, J>,
    first: &mut Reader<Stretch, J>,
    second: &mut Reader<Stretch, J>,
    told: &mut Told,
)
    requires unsealed { end_of directory.old.shown ≡ None }
    requires first_want { directory.old.short ≡ false }
    ensures unsealed { end_of directory.new.shown ≡ None }
{
    'entries: for count in 0..ENTRIES {
        let handed = count.saturating_add(1);
        match publish_one(rt, alloc, directory, count) {
            Some(false) => {
                told.handed = handed;
                look(rt, first, handed, None, told);
                if handed % 3 == 0 {
                    look(rt, second, handed, None, told);
                }
            }
            Some(true) => {
                told.handed = handed;
                told.pends = true;
                look(rt, first, count, None, told);
                return;
            }
            None => return,
        }
    }
}

// Seals, again where memory lacked.
fn seal<J: Naming, R: Wait>(
    rt: &R,
    directory: &mut Directory<Stretch, J>,
    reader: &mut Reader<Stretch, J>,
    shown: u64,
    told: &mut Told,
) -> Option<Note<Stretch, J>>
    requires unsealed { end_of directory.old.shown ≡ None }
{
    'tries: for _ in 0..3 {
        match directory.seal(rt, End::Closed) {
            Ok(note) => return Some(note),
            Err(_) => {
                told.seals = told.seals.saturating_add(1);
                look(rt, reader, shown, None, told);
            }
        }
    }
    return None;
}

// What one reader finds at the end, if that isn't refused twice.
fn look_at_all<J: Naming, R: Wait>(
    rt: &R,
    reader: &mut Reader<Stretch, J>,
    note: &Note<Stretch, J>,
    told: &mut Told,
) {
    reader.learn(note);
    let handed = told.handed;
    for _ in 0..3 {
        look(rt, reader, handed, Some(End::Closed), told);
    }
    told.right &= are_first(reader.entries(), handed);
}

fn go_through<J: Naming, R: Wait>(
    rt: &R,
    alloc: Global,
    directory: &mut Directory<Stretch, J>,
    first: &mut Reader<Stretch, J>,
    second: &mut Reader<Stretch, J>,
) -> Told
    requires unsealed { end_of directory.old.shown ≡ None }
    requires first_want { directory.old.short ≡ false }
{
    let mut told = Told {
        handed: 0,
        pends: false,
        seals: 0,
        refreshes: 0,
        right: true,
    };
    hand_in(rt, alloc, directory, first, second, &mut told);
    let waits = if told.pends { 1 } else { 0 };
    let shown = told.handed.saturating_sub(waits);
    match seal(rt, directory, first, shown, &mut told) {
        Some(note) => {
            look_at_all(rt, first, &note, &mut told);
            look_at_all(rt, second, &note, &mut told);
        }
        None => told.right = false,
    }
    told
}

fn run_as<J: Naming, R: Wait>(rt: &R, alloc: Global, opened: Opened<Stretch>) -> Option<Told>
    requires { opened.seen.book ≡ J.book }
{
    let Ok((mut directory, mut readers)) = open_directory::<Stretch, J, R>(alloc, rt, opened, 2)
    else {
        return None;
    };
    let told = match readers.as_mut_slice() {
        [first, second] => Some(go_through(rt, alloc, &mut directory, first, second)),
        _ => None,
    };
    directory.close(rt);
    told
}

fn main(rt: HostRuntime) -> io::Result<()> {
    let Some(told) = run_as::<Brand, _>(&rt, rt.alloc(), Opened::new()) else {
        return println!(rt; "nothing was begun");
    };
    let Told {
        handed,
        pends,
        seals,
        refreshes,
        right,
    } = told;
    let publish = if pends { "lacks memory" } else { "goes well" };
    println!(rt;
        "right={right} handed={handed} seals={seals} refreshes={refreshes}: the last publish {publish}"
    )
}
END_OF_CODE
cat >"$room/crates/refused_publish/proofs/main/Invariants.antt" <<'END_OF_PROOF'
use Rattle.refused_publish.proofs.main.Given as goal

-- the history that was just opened
abbrev pub ghosts-run_as : goal.ghosts-run_as
ghosts-run_as g a = record { book = a.opened.seen.book }
END_OF_PROOF
cat >"$room/crates/refused_publish/proofs/publish_one/Answers.antt" <<'END_OF_PROOF'
use Rattle.std.proofs.Common.{rules, refl}
use Rattle.live_entry.proofs.Nothing.{untold_follow}
use Rattle.live_directory.specs.Published.{entries_of}
use Rattle.refused_publish.proofs.publish_one.Goals as goal

pub publish-requires-clause-follow : goal.publish-requires-clause-follow
publish-requires-clause-follow g c = untold_follow _ (λ x. refl) _
END_OF_PROOF
cat >"$room/crates/refused_publish/proofs/hand_in/Invariants.antt" <<'END_OF_PROOF'
use Rattle.std.proofs.Common.{◌≡◌, None, false}
use Rattle.live_directory.specs.Published.{end_of}
use Rattle.refused_publish.proofs.hand_in.Given as goal

abbrev pub invariant-entries : goal.invariant-entries
invariant-entries g l = (end_of l.directory.shown ≡ None) × (l.directory.short ≡ false)
END_OF_PROOF
cat >"$room/crates/refused_publish/proofs/seal/Invariants.antt" <<'END_OF_PROOF'
use Rattle.std.proofs.Common.{◌≡◌, None}
use Rattle.live_directory.specs.Published.{end_of}
use Rattle.refused_publish.proofs.seal.Given as goal

abbrev pub invariant-tries : goal.invariant-tries
invariant-tries g l = end_of l.directory.shown ≡ None
END_OF_PROOF
(cd "$room/crates/refused_publish" && rt run >"$room/build.log" 2>&1) || { tail -20 "$room/build.log"; exit 1; }

cat >"$room/publishing.pl" <<'END_OF_PERL'
# Runs the writer of a directory again and again, with other allocations refused each time, and counts what comes of it.
use strict;
use warnings;
my ($program, $shim, $room) = @ARGV;
my ($runs, $wrong, %seen) = (0, 0);

sub try_one {
    my ($first, $second) = @_;
    unlink "$room/told";
    local @ENV{'REFUSED', 'REFUSED_TOLD', 'LD_PRELOAD'} = ("$first $second", "$room/told", $shim);
    # A list of words, so that no shell is refused memory.
    open(my $pipe, '-|', $program, 'once') or die;
    my $said = join '', <$pipe>;
    close $pipe;
    my $status = $?;
    my $refused = -s "$room/told" // 0;
    chomp $said;
    my $what = $said;
    $runs++;
    if ($status || $said !~ /^(right=true handed=\d+ seals=\d+ refreshes=\d+: .*|nothing was begun)$/) {
        $wrong++;
        print "WRONG: allocations $first and $second refused: status $status: $said\n";
    }
    $what =~ s/right=true handed=\d+ //;
    $seen{$what}++ if $refused;
    return $refused;
}

my $count = 0;
for (my $none = 0; $none < 3; ) {
    $count++;
    if (try_one($count, 0)) { $none = 0 } else { $none++ }
}
for my $first (1 .. $count) {
    for (my $second = $first + 1; try_one($first, $second) == 2; $second++) { }
}
print "$runs runs of a directory with two readers:\n";
printf "%6d  %s\n", $seen{$_}, $_ for sort keys %seen;
my @both = grep { /seals=1 .*lacks memory/ } keys %seen;
print "WRONG: no publish and then the seal lacked memory\n" if !@both;
exit($wrong || !@both ? 1 : 0);
END_OF_PERL
perl "$room/publishing.pl" "$room/crates/refused_publish/out/refused_publish" "$room/refusing.so" "$room" || wrong=1

# --- Recordings ---

program="${MCAPREC:-$here/../crates/mcap_cli/out/mcap_cli}"
# The first run of the launcher may build the program.
[ -n "${MCAPREC-}" ] || "$here/../mcaprec" record "$room/whole.mcap" "$here/../samples/empty.mcap" >/dev/null
cat >"$room/recording.pl" <<'END_OF_PERL'
# Records a feed beside two watchers again and again, with another allocation refused each time, and looks at what is left.
use strict;
use warnings;
use Fcntl;
use POSIX ':sys_wait_h';
use Time::HiRes 'sleep';
my ($program, $shim, $room) = @ARGV;
my ($feed, $whole, $out) = ("$room/feed.mcap", "$room/whole.mcap", "$room/out.mcap");
$SIG{PIPE} = 'IGNORE';

sub framed { my ($op, $content) = @_; return pack('C Q<', $op, length $content) . $content; }
sub text { my ($text) = @_; return pack('V', length $text) . $text; }
sub content_of { my ($name) = @_; open(my $file, '<:raw', $name) or return undef; local $/; return scalar(<$file>) // ''; }
my @crcs = map { my $c = $_; for (1 .. 8) { $c = $c & 1 ? ($c >> 1) ^ 0xedb88320 : $c >> 1 } $c } 0 .. 255;
sub crc_of {
    my $crc = 0xffffffff;
    $crc = ($crc >> 8) ^ $crcs[($crc ^ $_) & 255] for unpack('C*', $_[0]);
    return sprintf('%08x', $crc ^ 0xffffffff);
}

# A channel and twelve messages on it, whose times rise: a block each, of which the first has no message.
my $messages = 12;
my @records = (framed(4, pack('v v', 1, 0) . text('/a') . text('') . pack('V', 0)),
    map { framed(5, pack('v V Q< Q<', 1, $_, 10 + $_, 9) . 'x' x $_) } 1 .. $messages);
my $head = "\x89MCAP0\r\n" . framed(1, text('') . text(''));
my $tail = framed(15, pack('V', 0));
open(my $file, '>:raw', $feed) or die;
print $file $head, @records, $tail;
close $file or die;

# Runs words, with these allocations refused; the feed comes by a pipe in two halves where one is to be watched meanwhile.
my ($said, $complained, $refused);
sub run_words {
    my ($first, $second, $halves, @words) = @_;
    unlink $out, "$out.watch1", "$out.watch2", "$room/told";
    pipe(my $from, my $to) or die;
    my $child = fork() // die;
    if (!$child) {
        close $to;
        open(STDIN, '<&', $from) or die;
        open(STDOUT, '>', "$room/said") or die;
        open(STDERR, '>', "$room/complained") or die;
        @ENV{'REFUSED', 'REFUSED_TOLD', 'LD_PRELOAD'} = ("$first $second", "$room/told", $shim) if $first;
        exec $program, @words or die;
    }
    my $ended;
    for my $half ($halves ? @$halves : ()) {
        syswrite($to, $half);
        # Until it is read.
        for (1 .. 5000) {
            my $left = pack('i', 0);
            ioctl($from, 0x541b, $left);
            last if ($ended = waitpid($child, WNOHANG)) || !unpack('i', $left);
            sleep 0.001;
        }
        last if $ended;
        sleep 0.012;
    }
    close $to;
    close $from;
    for (1 .. 20000) {
        last if $ended;
        $ended = waitpid($child, WNOHANG);
        sleep 0.0005 if !$ended;
    }
    if (!$ended) {
        kill 'KILL', $child;
        waitpid($child, 0);
        return 'no end';
    }
    my $status = $? & 127 ? 'signal ' . ($? & 127) : $? >> 8;
    ($said, $complained, $refused) = map { content_of("$room/$_") // '' } 'said', 'complained', 'told';
    $refused = length $refused;
    return $status;
}

sub read_back {
    my (@words) = @_;
    open(my $pipe, '-|', $program, @words) or die;
    local $/;
    my $text = <$pipe> // '';
    return close($pipe) ? $text : undef;
}

die "the feed isn't recorded\n" if run_words(0, 0, undef, 'record', '--chunk', '1', $whole, $feed) ne '0';
my $all = content_of($whole);
my $lines = read_back('cat', $whole);

# Whether a watcher's text is right beside a file of so many blocks and these lines, and how it ends.
sub judge_watch {
    my ($text, $blocks, $lines, $word) = @_;
    my @lines = split /(?<=\n)/, $lines;
    my $last = 0;
    while ($text =~ s/^front (\d+) (\d+) ([0-9a-f]{8})\n//) {
        my ($n, $count, $crc) = ($1, $2, $3);
        return 'wrong front' if $n > $blocks || $n < 1 || $n < 2 * $last || $count != $n - 1;
        return 'wrong crc' if $crc ne crc_of(join '', @lines[0 .. $n - 2]);
        $last = $n;
    }
    my $end = sprintf("end %s %d %d\n", $word, $blocks, scalar @lines) . $lines;
    return 'whole' if $text eq $end;
    return 'unsealed' if $text eq "end unsealed\n";
    return 'cut' if substr($end, 0, length $text) eq $text;
    return 'wrong end';
}

# What is wrong with what a run left, or a few words on it.
sub judge {
    my ($status) = @_;
    return "wrong status $status" if $status ne '0' && $status ne '5';
    return 'complaint missing' if $status eq '5' && $complained !~ /^mcaprec: no memory$/m;
    my @watched = map { content_of("$out.watch$_") } 1, 2;
    my $left = content_of($out);
    if ($said !~ /^file records=\d+ blocks=(\d+) bytes=(\d+) (closed|stopped memory)$/m) {
        return 'wrong without a report' if $status eq '0' || grep { defined && length } $left, @watched;
        return 'nothing was begun';
    }
    my ($blocks, $bytes, $end) = ($1, $2, $3);
    return 'wrong length' if !defined $left || length $left != $bytes;
    my $shown = $lines;
    if ($left ne $all) {
        return 'wrong file' if $status eq '0';
        my $from = $out;
        if ($end ne 'closed') {
            return 'wrong front of a file' if substr($all, 0, $bytes) ne $left && !$main::several;
            $from = "$room/recovered.mcap";
            return 'a file without blocks' if !$blocks;
            defined read_back('recover', $out, $from) or return 'wrong: not recovered';
        } elsif ((read_back('check', $out) // '') !~ /^ok indexed /) {
            return 'wrong: not valid';
        }
        $shown = read_back('cat', $from) // return 'wrong: not read';
    }
    my @how = map { judge_watch($_ // '', $blocks, $shown, $end eq 'closed' ? 'closed' : 'stopped') } @watched;
    my ($bad) = grep { /wrong/ } @how;
    return "$bad of a watcher" if $bad;
    return 'wrong: a watcher is not whole' if $status eq '0' && grep { $_ ne 'whole' } @how;
    my $file = $left eq $all ? 'the whole file' : $end eq 'closed' ? 'a file of fewer messages' : 'a front of the file';
    return "$file, watchers @how";
}

my ($runs, $wrong, %seen) = (0, 0);
our $several = 0;
sub try_one {
    my ($first, $second, $halves) = @_;
    my @words = ('record', '--chunk', '1', '--watchers', '2', $out, $halves ? '/dev/stdin' : $feed);
    my $status = run_words($first, $second, $halves, @words);
    my $what = $status eq 'no end' ? 'wrong: it does not end' : judge($status);
    $seen{"$status: $what"}++;
    $runs++;
    if ($what =~ /wrong|missing/) {
        $wrong++;
        print "WRONG: allocations $first and $second refused: $status: $what\n$complained";
    }
    return $refused;
}

my @halves = ($head . join('', @records[0 .. 6]), join('', @records[7 .. $#records]) . $tail);
my $count = 0;
for (my $none = 0; $none < 3; ) {
    $count++;
    if (try_one($count, 0, \@halves)) { $none = 0 } else { $none++ }
}
$several = 1;
for my $first (1 .. $count) {
    try_one($first, $first + $_, undef) for 1 .. 12;
}
print "$runs runs of a recording with two watchers:\n";
printf "%6d  status %s\n", $seen{$_}, $_ for sort keys %seen;
my $sealed = grep { /the whole file, watchers unsealed unsealed/ } keys %seen;
print "WRONG: no run lacked memory in the seal\n" if !$sealed;
exit($wrong || !$sealed ? 1 : 0);
END_OF_PERL
perl "$room/recording.pl" "$program" "$room/refusing.so" "$room" || wrong=1

if [ "$wrong" -ne 0 ]; then echo 'WRONG: see above'; fi
exit "$wrong"
