#!/usr/bin/env bash
# Times `mcaprec merge OUT A B` beside `cat A B >OUT` on two recordings in chunks of so many MiB (128) each, best of five, in one
# run: messages of 1,000 and of 64 bytes of data, whose times alternate, so that a chunk of each is wanted at a time, or don't
# overlap (`apart`), or all stand in one recording beside one without messages (`alone`); and `plain` recordings of alternating
# times, of which each message is read for itself. The lines of `cat` of what was merged
# are compared with those of both inputs, sorted by time, on a smaller pair. At last the most memory is shown that a merge of a
# pair of a quarter of the size took, and of the whole pair: it must not grow with them. Where mergecap is there, it merges two
# captures of packets as long, beside `cat` of both. It needs perl. MCAPREC names another program to time in place of the
# launcher.
set -e
export LC_ALL=C
here="$(cd "$(dirname "$0")" && pwd)"
mib="${1:-128}"
program="${MCAPREC:-$here/../mcaprec}"
if ! command -v perl >/dev/null; then
    echo "bench/merge.sh: skipped, perl is not there (Debian: perl-base)"
    exit 0
fi
if ! [[ "$mib" =~ ^[1-9][0-9]{0,4}$ ]]; then
    echo "usage: bench/merge.sh [MIB]" >&2
    exit 2
fi
work="$(mktemp -d)"
trap 'rm -rf "$work"' EXIT
out="$work/out"

# Writes a recording under that name, of so many bytes of whole messages of that size of data, and says how many. The first
# was logged so many microseconds behind the beginning, each other one so many behind the one before. Words behind these are
# for `record`.
make_recording() {
    local name=$1 size=$2 first=$3 step=$4 bytes=$5
    shift 5
    perl - "$work/feed" "$size" "$first" "$step" "$bytes" <<'END'
use strict;
my ($name, $size, $first, $step, $bytes) = @ARGV;
my $magic = "\x89MCAP0\r\n";
sub framed { my ($op, $content) = @_; return pack('C Q<', $op, length $content) . $content; }
sub text { my ($text) = @_; return pack('V', length $text) . $text; }
open(my $file, '>:raw', $name) or die "$name: $!";
print $file $magic, framed(1, text('') . text('bench'));
print $file framed(4, pack('v v', 1, 0) . text("/topic/$first") . text('') . pack('V', 0));
my $data = join '', map { chr($_ * 7 % 256) } 1 .. $size;
my $count = int($bytes / (31 + $size));
for my $i (0 .. $count - 1) {
    my $time = 1_700_000_000_000_000_000 + 1000 * ($first + $step * $i);
    print $file framed(5, pack('v V Q< Q<', 1, $i, $time, $time) . $data);
}
print $file framed(15, pack('V', 0));
close $file or die "$name: $!";
print "$count\n";
END
    "$program" record --lossless "$@" "$work/$name" "$work/feed" >/dev/null
    rm -f "$work/feed"
}

# Runs a command five times, each with no output there, and sets `best` to the microseconds of the fastest.
time_best() {
    local start took
    best=
    for _ in 1 2 3 4 5; do
        rm -f "$out"
        start=${EPOCHREALTIME/./}
        "$@" >"$work/printed"
        took=$((${EPOCHREALTIME/./} - start))
        if [ -z "$best" ] || [ "$took" -lt "$best" ]; then best=$took; fi
    done
}

# The most memory that the command took, as the kernel says.
peak_of() {
    if [ -x /usr/bin/time ]; then
        rm -f "$out"
        /usr/bin/time -v -o "$work/usage" "$@" >/dev/null
        sed -n 's/.*Maximum resident set size (kbytes): //p' "$work/usage"
    else
        echo '?'
    fi
}

join_inputs() {
    cat "$work/a" "$work/b" >"$out"
}

# The lines of what was merged are those of the inputs, in the order of time, but for the channels' ids.
compare_lines() {
    "$program" merge "$out" "$work/a" "$work/b" >/dev/null
    "$program" cat "$out" | cut -d ' ' -f 1,2,4- >"$work/merged-lines"
    for input in a b; do "$program" cat "$work/$input"; done | sort -s -k 1,1n | cut -d ' ' -f 1,2,4- >"$work/sorted-lines"
    if ! cmp -s "$work/merged-lines" "$work/sorted-lines"; then
        echo "bench/merge.sh: the lines of the merge differ from those of its inputs" >&2
        exit 1
    fi
    rm -f "$work/merged-lines" "$work/sorted-lines"
}

# The first run of the launcher may build the program.
"$program" record "$out" "$here/../samples/empty.mcap" >/dev/null
[ -x /usr/bin/time ] || echo "peak memory: skipped, /usr/bin/time is not there (Debian: time)"
for size in 1000 64; do
    make_recording a "$size" 0 2 1048576 >/dev/null
    make_recording b "$size" 1 2 1048576 >/dev/null
    compare_lines
done
echo "lines: those of both inputs, in the order of time"
printf '%8s %6s %9s %10s %10s %6s %12s %9s\n' data kind messages merge cat speed messages/s 'peak KiB'
whole=$((mib * 1048576))
for size in 1000 64; do
    for kind in alternate apart alone plain; do
        form=()
        case $kind in
            alternate) first=1 step=2 bytes=$whole ;;
            plain) first=1 step=2 bytes=$whole form=(--plain) ;;
            apart) first=$whole step=1 bytes=$whole ;;
            alone) first=1 step=1 bytes=0 ;;
        esac
        count="$(make_recording a "$size" 0 "$step" "$whole" "${form[@]}")"
        count=$((count + $(make_recording b "$size" "$first" "$step" "$bytes" "${form[@]}")))
        time_best join_inputs
        joined=$best
        time_best "$program" merge "$out" "$work/a" "$work/b"
        if ! grep -q " messages=$count " "$work/printed"; then
            cat "$work/printed"
            echo "bench/merge.sh: not all of $count messages were merged" >&2
            exit 1
        fi
        awk -v s="$size" -v g="$kind" -v n="$count" -v r="$best" -v k="$joined" -v p="$(peak_of "$program" merge "$out" "$work/a" "$work/b")" 'BEGIN {
            printf "%8d %9s %9d %8.3f s %8.3f s %6.2f %12.0f %9s\n", s, g, n, r / 1e6, k / 1e6, k / r, n * 1e6 / r, p }'
    done
done
if [ -x /usr/bin/time ]; then
    peaks=()
    for part in 4 1; do
        make_recording a 1000 0 2 $((whole / part)) >/dev/null
        make_recording b 1000 1 2 $((whole / part)) >/dev/null
        peaks+=("$(peak_of "$program" merge "$out" "$work/a" "$work/b")")
        echo "peak memory of a merge of two recordings of $((mib / part)) MiB: ${peaks[-1]} KiB"
    done
    if [ $((peaks[1] - peaks[0])) -gt 4096 ]; then
        echo "bench/merge.sh: memory grows with the messages" >&2
        exit 1
    fi
fi
if ! command -v mergecap >/dev/null; then
    echo "mergecap: skipped, it is not there (Debian: wireshark-common)"
    exit 0
fi
for name in a b; do
    perl - "$work/$name" "$whole" "$name" <<'END'
use strict;
my ($name, $bytes, $which) = @ARGV;
open(my $file, '>:raw', $name) or die "$name: $!";
print $file pack('V v v V V V V', 0xa1b23c4d, 2, 4, 0, 0, 65535, 147);
my $data = join '', map { chr($_ * 7 % 256) } 1 .. 1000;
for my $i (0 .. int($bytes / 1016) - 1) {
    my $time = 2 * $i + ($which eq 'b');
    print $file pack('V V V V', 1_700_000_000 + int($time / 1_000_000), 1000 * ($time % 1_000_000), 1000, 1000) . $data;
}
close $file or die "$name: $!";
END
done
time_best join_inputs
joined=$best
time_best mergecap -F nsecpcap -w "$out" "$work/a" "$work/b"
awk -v r="$best" -v k="$joined" 'BEGIN { printf "mergecap of packets of 1,000 bytes: %.3f s, %.2f of the speed of cat\n", r / 1e6, k / r }'
