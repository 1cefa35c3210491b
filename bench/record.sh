#!/usr/bin/env bash
# Times `mcaprec record --lossless OUT FEED`, plain and in chunks, and `check` and `cat` of the result beside `cp FEED OUT` on
# feeds of so many MiB (64), best of five each, in one run: messages of 1,000 and of 64 bytes of data, on one channel and on
# forty. The kind `chunks` is a plain feed recorded in chunks; of the file that this writes, `again` is its messages recorded in
# chunks, `flat` the same recorded plain, and `recover` a recovery of it; `watch1` and `watch4` are recordings in chunks with so
# many watchers of a thousand messages. Then four feeds and 64 of as many bytes in all are recorded at once, plain and in chunks,
# beside `cat FEED... >OUT`. At last the most memory is shown that a recording of one million and of twenty million messages of
# 64 bytes took, whatever MIB is, with a buffer of 262,144 bytes, which both fill: it must not grow with them.
# MCAPREC names another program to time in place of the launcher.
set -e
export LC_ALL=C
here="$(cd "$(dirname "$0")" && pwd)"
mib="${1:-64}"
program="${MCAPREC:-$here/../mcaprec}"
if ! command -v perl >/dev/null; then
    echo "bench/record.sh: skipped, perl is not there (Debian: perl-base)"
    exit 0
fi
if ! [[ "$mib" =~ ^[1-9][0-9]{0,4}$ ]]; then
    echo "usage: bench/record.sh [MIB]" >&2
    exit 2
fi
work="$(mktemp -d)"
trap 'rm -rf "$work"' EXIT
feed="$work/feed.mcap"
chunked="$work/chunked.mcap"
out="$work/out.mcap"
# Where the printed text goes.
sink="$work/printed"

# Writes a feed of whole messages of so many bytes of data, taking turns on so many channels, and says how many. It may have
# another name, and a part of the bytes.
make_feed() {
    perl - "${3:-$feed}" "$mib" "$1" "$2" "${4:-1}" <<'END'
use strict;
my ($name, $mib, $size, $channels, $parts) = @ARGV;
my $magic = "\x89MCAP0\r\n";
sub framed { my ($op, $content) = @_; return pack('C Q<', $op, length $content) . $content; }
sub text { my ($text) = @_; return pack('V', length $text) . $text; }
open(my $file, '>:raw', $name) or die "$name: $!";
print $file $magic, framed(1, text('') . text('bench'));
for my $id (1 .. $channels) {
    print $file framed(4, pack('v v', $id, 0) . text("/topic/$id") . text('') . pack('V', 0));
}
my $data = join '', map { chr($_ * 7 % 256) } 1 .. $size;
my $count = int($mib * 1024 * 1024 / (31 + $size) / $parts);
for my $i (0 .. $count - 1) {
    my $time = 1_700_000_000_000_000_000 + 1000 * $i;
    print $file framed(5, pack('v V Q< Q<', 1 + $i % $channels, $i, $time, $time) . $data);
}
print $file framed(15, pack('V', 0));
close $file or die "$name: $!";
print "$count\n";
END
}

# Runs a command five times, each with no output there, and sets `best` to the microseconds of the fastest.
time_best() {
    local start took
    best=
    for _ in 1 2 3 4 5; do
        rm -f "$out"
        start=${EPOCHREALTIME/./}
        "$@" >"$sink"
        took=$((${EPOCHREALTIME/./} - start))
        if [ -z "$best" ] || [ "$took" -lt "$best" ]; then best=$took; fi
    done
}

# The most memory that the command took, as the kernel says.
peak_of() {
    if [ -x /usr/bin/time ]; then
        rm -f "$out"
        /usr/bin/time -v -o "$work/usage" "$@" >/dev/null
        sed -n 's/.*Maximum resident set size (kbytes): //p' "$work/usage"
    else
        echo '?'
    fi
}

# Times a command of that kind beside `cp`, whose time is `copied`.
row() {
    local kind=$1 wanted=$2
    shift 2
    time_best "$@"
    if [ -n "$wanted" ] && ! grep -qx "$wanted" "$work/printed"; then
        cat "$work/printed"
        echo "bench/record.sh: not all of $count messages were recorded or checked" >&2
        exit 1
    fi
    local took=$best
    awk -v s="$size" -v c="$channels" -v g="$kind" -v n="$count" -v r="$took" -v k="$copied" -v p="$(peak_of "$@")" 'BEGIN {
        printf "%8d %8d %7s %9d %8.3f s %8.3f s %6.2f %12.0f %9s\n", s, c, g, n, r / 1e6, k / 1e6, k / r, n * 1e6 / r, p }'
}

# The times of the first thousand messages, which watchers replay.
part=1700000000000000000:1700000000001000000
# The first run of the launcher may build the program.
"$program" record "$out" "$here/../samples/empty.mcap" >/dev/null
[ -x /usr/bin/time ] || echo "peak memory: skipped, /usr/bin/time is not there (Debian: time)"
printf '%8s %8s %7s %9s %10s %10s %6s %12s %9s\n' data channels kind messages mcaprec cp speed messages/s 'peak KiB'
for size in 1000 64; do
    for channels in 1 40; do
        count="$(make_feed "$size" "$channels")"
        time_best cp "$feed" "$out"
        copied=$best
        all="feed 1 accepted=$count refused=0 passed=0 end"
        row plain "$all" "$program" record --lossless --plain "$out" "$feed"
        row chunks "$all" "$program" record --lossless "$out" "$feed"
        "$program" record --lossless "$chunked" "$feed" >/dev/null
        row again "$all" "$program" record --lossless "$out" "$chunked"
        row flat "$all" "$program" record --lossless --plain "$out" "$chunked"
        row recover "recovered messages=$count .* complete" "$program" recover "$chunked" "$out"
        if [ "$channels" -eq 1 ]; then
            for many in 1 4; do
                row "watch$many" "$all" "$program" record --lossless --watch "$part" --watchers "$many" "$out" "$feed"
            done
            rm -f "$out".watch*
            row check "ok indexed messages=$count .*" "$program" check "$chunked"
            sink=/dev/null
            (. "$here/../.ci/memory" && row cat '' "$program" cat "$chunked")
            sink="$work/printed"
        fi
    done
done
# Feeds beside each other: each has a part of the bytes.
join_feeds() {
    cat "${feeds[@]}" >"$out"
}
for size in 1000 64; do
    for many in 4 64; do
        feeds=()
        for n in $(seq "$many"); do
            feeds+=("$work/part-$n.mcap")
            count="$(make_feed "$size" 1 "$work/part-$n.mcap" "$many")"
        done
        channels=1
        all="feed $many accepted=$count refused=0 passed=0 end"
        count=$((count * many))
        time_best join_feeds
        copied=$best
        row "$many" "$all" "$program" record --lossless --plain "$out" "${feeds[@]}"
        row "${many}chunks" "$all" "$program" record --lossless "$out" "${feeds[@]}"
        rm -f "${feeds[@]}"
    done
done
time_best "$program" record "$out" "$here/../samples/empty.mcap"
awk -v b="$best" 'BEGIN { printf "of each time, on a feed without messages: %.3f s\n", b / 1e6 }'
# The feed comes by a pipe and OUT is /dev/null, so that neither needs a place.
if [ -x /usr/bin/time ]; then
    peaks=()
    for mib in 91 1812; do
        rm -f "$work/pipe"
        mkfifo "$work/pipe"
        make_feed 64 1 "$work/pipe" >"$work/many" &
        peaks+=("$(peak_of "$program" record --lossless --limit 262144 /dev/null "$work/pipe")")
        wait
        echo "peak memory of a recording of $(cat "$work/many") messages: ${peaks[-1]} KiB"
    done
    if [ $((peaks[1] - peaks[0])) -gt 2048 ]; then
        echo "bench/record.sh: memory grows with the messages" >&2
        exit 1
    fi
fi
