#!/usr/bin/env bash
# Times `mcaprec cat --indexed` of a hundredth of a recording's time beside `cat` of the same range, both into
# /dev/null, and `info`, on a recording of so many MiB (256) of messages of 1,000 bytes of data, best of five each, in one
# run. The lines of both are compared apart from that. Where strace is there it counts the bytes that reads at a place of
# the file gave. It needs perl. MCAPREC names another program to time in place of the launcher.
set -e
export LC_ALL=C
here="$(cd "$(dirname "$0")" && pwd)"
mib="${1:-256}"
program="${MCAPREC:-$here/../mcaprec}"
if ! command -v perl >/dev/null; then
    echo "bench/indexed.sh: skipped, perl is not there (Debian: perl-base)"
    exit 0
fi
if ! [[ "$mib" =~ ^[1-9][0-9]{0,4}$ ]]; then
    echo "usage: bench/indexed.sh [MIB]" >&2
    exit 2
fi
work="$(mktemp -d)"
trap 'rm -rf "$work"' EXIT

# Writes a feed of messages on ten channels, a microsecond apart, and says how many.
make_feed() {
    perl - "$work/feed.mcap" "$mib" <<'END'
use strict;
my ($name, $mib) = @ARGV;
my $magic = "\x89MCAP0\r\n";
sub framed { my ($op, $content) = @_; return pack('C Q<', $op, length $content) . $content; }
sub text { my ($text) = @_; return pack('V', length $text) . $text; }
open(my $file, '>:raw', $name) or die "$name: $!";
print $file $magic, framed(1, text('') . text('bench'));
for my $id (1 .. 10) {
    print $file framed(4, pack('v v', $id, 0) . text("/topic/$id") . text('') . pack('V', 0));
}
my $data = join '', map { chr($_ * 7 % 256) } 1 .. 1000;
my $count = int($mib * 1024 * 1024 / 1031);
for my $i (0 .. $count - 1) {
    my $time = 1_700_000_000_000_000_000 + 1000 * $i;
    print $file framed(5, pack('v V Q< Q<', 1 + $i % 10, $i, $time, $time) . $data);
}
print $file framed(15, pack('V', 0));
close $file or die "$name: $!";
print "$count\n";
END
}

# Runs a command five times, and sets `best` to the microseconds of the fastest.
time_best() {
    local start took
    best=
    for _ in 1 2 3 4 5; do
        start=${EPOCHREALTIME/./}
        "$@" >/dev/null
        took=$((${EPOCHREALTIME/./} - start))
        if [ -z "$best" ] || [ "$took" -lt "$best" ]; then best=$took; fi
    done
}

# The first run of the launcher may build the program.
"$program" record "$work/file.mcap" "$here/../samples/empty.mcap" >/dev/null
count="$(make_feed)"
"$program" record "$work/file.mcap" "$work/feed.mcap" >/dev/null
rm -f "$work/feed.mcap"
start=$((1700000000000000000 + 1000 * (count / 2)))
end=$((start + 1000 * (count / 100)))

# Says how many bytes the reads at places of the file gave, where strace can tell. Only a store reads so.
count_read() {
    if ! command -v strace >/dev/null; then
        echo "bytes read: not counted, strace is not there (Debian: strace)"
    elif ! strace -f -qq -e trace=pread64 -P "$work/file.mcap" -o "$work/reads" "$@" >/dev/null; then
        echo "bytes read: not counted, strace cannot trace here"
    else
        awk -v all="$(stat -c %s "$work/file.mcap")" '/^[0-9]+ +pread64/ { n += 1; sum += $NF }
            END { printf "bytes read: %d in %d reads, of %d\n", sum, n, all }' "$work/reads"
    fi
}

range=(--start "$start" --end "$end")
"$program" cat "${range[@]}" "$work/file.mcap" >"$work/wanted"
"$program" cat --indexed "${range[@]}" "$work/file.mcap" | cmp - "$work/wanted"
rm "$work/wanted"
# As the launcher does.
had=${GLIBC_TUNABLES-}
. "$here/../.ci/memory"
time_best "$program" cat "${range[@]}" "$work/file.mcap"
scanned=$best
time_best "$program" cat --indexed "${range[@]}" "$work/file.mcap"
indexed=$best
[ -n "$had" ] || unset GLIBC_TUNABLES
time_best "$program" info "$work/file.mcap"
told=$best
time_best cp "$work/file.mcap" "$work/copy.mcap"
copied=$best
awk -v n="$((count / 100))" -v all="$count" -v s="$scanned" -v i="$indexed" -v t="$told" -v c="$copied" 'BEGIN {
    printf "%d of %d messages: cat %.3f s, cat --indexed %.4f s, %.0f times as fast\n", n, all, s / 1e6, i / 1e6, s / i
    printf "info %.4f s, cp of the file %.3f s\n", t / 1e6, c / 1e6 }'
count_read "$program" cat --indexed "${range[@]}" "$work/file.mcap"
