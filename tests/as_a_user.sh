#!/bin/sh
# Runs mcaprec as a user does: by its launcher, from another folder, on real files. Prints each command, what it wrote
# and its status, and says which differ from what is wanted. The first run proves and builds the program.
set -u

root=$(CDPATH='' cd -P -- "$(dirname -- "$0")/.." && pwd)
sample=$root/samples/empty.mcap
one=$root/samples/one.mcap
session=$root/samples/session.mcap
other=$root/samples/another_writer.mcap
room=$(mktemp -d) || exit 1
disk=$room/disk
wrong=0

leave() {
    if mountpoint -q "$disk"; then umount "$disk"; fi
    rm -rf -- "$room"
}
trap leave EXIT
trap 'exit 1' HUP INT TERM

say_wrong() {
    printf 'WRONG: %s\n' "$1"
    wrong=$((wrong + 1))
}

# Compares two texts: the name of what they are, what is wanted, what is there.
compare() {
    [ "$2" = "$3" ] || say_wrong "$1 is to be: $2"
}

# What standard output goes through before it is compared.
filter='cat'

# Runs a command and compares what it leaves: the status, standard output, standard error, and the command.
expect() {
    status=$1 out=$2 err=$3
    shift 3
    printf '$ %s\n' "$*"
    "$@" >"$room/stdout" 2>"$room/stderr" </dev/null
    got=$?
    cat -- "$room/stdout" "$room/stderr"
    printf 'status %s\n\n' "$got"
    compare 'the status' "$status" "$got"
    compare 'standard output' "$out" "$($filter <"$room/stdout")"
    compare 'standard error' "$err" "$(cat -- "$room/stderr")"
}

skip() {
    printf 'skipped: %s\n\n' "$1"
}

# The bytes of a file in hexadecimal digits.
digits_of() {
    od -An -v -tx1 -- "$1" | tr -d ' \n'
}

# What each file begins with, magic and Header, and ends with: Data End, Footer, magic.
front=894d434150300d0a\
01110000000000000000000000090000006d6361707265632031
back=0f040000000000000000000000\
0214000000000000000000000000000000000000000000000000000000\
894d434150300d0a

# What is recorded of the session: the channel /imu with its schema and its three messages, and /log with its two.
schema=032c000000000000000100\
03000000496d75\
0a0000006a736f6e736368656d61\
110000007b2274797065223a226f626a656374227d
imu=0418000000000000000100010004000000\
2f696d75040000006a736f6e00000000
imu_1=051f00000000000000010001000000e803000000000000de03000000000000\
7b227a223a392e387d
imu_2=051f00000000000000010002000000f203000000000000e803000000000000\
7b227a223a392e377d
imu_3=051600000000000000010003000000fc03000000000000f203000000000000
log=0432000000000000000200000004000000\
2f6c6f67000000001e000000\
050000006672616d650400000062617365\
04000000756e69740100000073
log_1=051b00000000000000020001000000ed03000000000000ed03000000000000\
7374617274
log_2=051a0000000000000002000200000006040000000000000604000000000000\
73746f70
imu_first=$schema$imu$imu_1

# That the file holds these records, given as digits, between its front and its back.
expect_records() {
    compare "$1" "$front$2$back" "$(digits_of "$1")"
}

expect_empty_file() {
    expect_records "$1" ''
}

expect_absent() {
    [ ! -e "$1" ] || say_wrong "$1 was made"
}

feed_line='feed 1 accepted=0 refused=0 passed=0'
file_line='file records=0 blocks=0 bytes=84 closed'
both_lines="$feed_line end
$file_line"
session_lines='feed 1 accepted=5 refused=0 passed=0 end
file records=8 blocks=0 bytes=411 closed'
# The text that the program prints; also what the launcher says where the program isn't built.
usage=$("$root/.ci/usage")
compare 'the commands in the README' "$(printf '%s\n' "$usage" | sed -n 's/^  \([a-z]*\) .*/\1/p')" "$(sed -n 's/^| `\([a-z]*\) [A-Z].*/\1/p' "$root/README.md")"

"$root/mcaprec" info "$one" >/dev/null </dev/null
compare 'the status of the first run' 0 $?

mkdir -- "$room/work" "$room/a folder" "$disk"
ln -s -- "$root/mcaprec" "$room/a folder/a link"
cd -- "$room/work" || exit 1
PATH=$root:$PATH

# ---- files

expect 2 '' "$usage" mcaprec
expect 2 '' "$usage" mcaprec record same.mcap same.mcap
expect 2 '' "$usage" mcaprec record --chunk 67108865 out.mcap "$sample"
expect 2 '' "$usage" mcaprec record --plain not-text.mcap "$(printf '\377')"
expect 0 "$both_lines" '' mcaprec record --plain out.mcap "$sample"
expect_empty_file out.mcap

cp -- "$sample" 'a feed.mcap'
expect 0 "$both_lines" '' "$room/a folder/a link" record --plain 'an output.mcap' 'a feed.mcap'
expect_empty_file 'an output.mcap'

expect 0 "$session_lines" '' mcaprec record --plain session-out.mcap "$session"
expect_records session-out.mcap "$imu_first$log$log_1$imu_2$imu_3$log_2"

expect 3 '' 'mcaprec: "missing.mcap": fault' mcaprec record --plain none.mcap missing.mcap
expect_absent none.mcap
expect 3 '' 'mcaprec: "no folder/out.mcap": fault' mcaprec record --plain 'no folder/out.mcap' "$sample"
expect 3 '' "mcaprec: \"$room/work\": fault" mcaprec record --plain "$room/work" "$sample"

head -c 30 -- "$sample" >cut.mcap
expect 1 "$feed_line grammar 25
$file_line" 'mcaprec: "cut.mcap": grammar at 25' mcaprec record --plain cut-out.mcap cut.mcap
expect_empty_file cut-out.mcap

{ head -c 25 -- "$sample" && printf '\005\0\0\0\0\0\0\0\0'; } >message.mcap
expect 1 "$feed_line grammar 25
$file_line" 'mcaprec: "message.mcap": grammar at 25' mcaprec record --plain message-out.mcap message.mcap

# The fourth message stands from 292 to 323.
head -c 303 -- "$session" >cut-session.mcap
expect 1 'feed 1 accepted=3 refused=0 passed=0 grammar 292
file records=6 blocks=0 bytes=345 closed' 'mcaprec: "cut-session.mcap": grammar at 292' \
    mcaprec record --plain cut-session-out.mcap cut-session.mcap
expect_records cut-session-out.mcap "$imu_first$log$log_1$imu_2"

# Behind the first message, which ends at 216: a Chunk without content, and the Schema of id 3 with other fields.
{ head -c 216 -- "$session" && printf '\006\0\0\0\0\0\0\0\0'; } >chunk.mcap
expect 1 'feed 1 accepted=1 refused=0 passed=0 grammar 216
file records=3 blocks=0 bytes=210 closed' 'mcaprec: "chunk.mcap": grammar at 216' \
    mcaprec record --plain chunk-out.mcap chunk.mcap
expect_records chunk-out.mcap "$imu_first"

{ head -c 216 -- "$session" && printf '\003\016\0\0\0\0\0\0\0\003\0' && head -c 12 /dev/zero; } >schema.mcap
expect 1 'feed 1 accepted=1 refused=0 passed=0 grammar 216
file records=3 blocks=0 bytes=210 closed' 'mcaprec: "schema.mcap": grammar at 216' \
    mcaprec record --plain schema-out.mcap schema.mcap
expect_records schema-out.mcap "$imu_first"

# The first message, which stands from 176 to 216, 8,192 times: more than the program gathers before it writes.
dd if="$session" of=messages bs=1 skip=176 count=40 2>/dev/null
for _ in 1 2 3 4 5 6 7 8 9 10 11 12 13; do
    cat messages messages >doubled
    mv doubled messages
done
{ head -c 176 -- "$session" && cat messages && tail -c 13 -- "$session"; } >many.mcap
expect 0 'feed 1 accepted=8192 refused=0 passed=0 end
file records=8194 blocks=0 bytes=327850 closed' '' mcaprec record --plain many-out.mcap many.mcap
compare 'the length of many-out.mcap' 327850 "$(($(wc -c <many-out.mcap)))"

# ---- chunks

# That the file has so many bytes.
expect_size() {
    compare "the size of $1" "$2" "$(($(wc -c <"$1")))"
}

expect 0 "$feed_line end
file records=0 blocks=0 bytes=165 closed" '' mcaprec record indexed.mcap "$sample"
expect_size indexed.mcap 165
expect 0 'feed 1 accepted=1 refused=0 passed=0 end
file records=2 blocks=1 bytes=476 closed' '' mcaprec record one-out.mcap "$one"
expect_records_of() {
    compare "$1" "$(digits_of "$2")" "$(digits_of "$1")"
}
expect_records_of one-out.mcap "$one"
expect 0 'feed 1 accepted=1 refused=0 passed=0 end
file records=2 blocks=0 bytes=143 closed' '' mcaprec record --plain one-plain.mcap one-out.mcap
expect 0 'feed 1 accepted=1 refused=0 passed=0 end
file records=2 blocks=2 bytes=598 closed' '' mcaprec record --chunk 1 one-small.mcap one-plain.mcap
expect_size one-small.mcap 598

head -c 173 -- "$one" >one-cut.mcap
expect 1 'feed 1 accepted=1 refused=0 passed=0 grammar 173
file records=2 blocks=1 bytes=476 closed' 'mcaprec: "one-cut.mcap": grammar at 173' mcaprec record one-again.mcap one-cut.mcap
expect_records_of one-again.mcap "$one"

# ---- a pipe that is filled slowly

mkfifo pipe
for size in 40 3 50 100 25 100 53; do
    dd bs=1 count=$size 2>/dev/null
    sleep 0.2
done <"$session" >pipe &
expect 0 "$session_lines" '' mcaprec record --plain from-pipe.mcap pipe
expect_records from-pipe.mcap "$imu_first$log$log_1$imu_2$imu_3$log_2"

# ---- many feeds

# The messages of a file without the ids of their channels, which depend on which feed comes first.
without_ids() {
    mcaprec cat "$1" | cut -d ' ' -f 1,2,4- | sort
}
# That the file holds the messages of these feeds, and breaks no rule.
expect_messages_of() {
    recorded=$1
    shift
    for feed in "$@"; do mcaprec cat "$feed"; done | cut -d ' ' -f 1,2,4- | sort >wanted
    without_ids "$recorded" | cmp -s -- wanted - || say_wrong "$recorded has other messages than $*"
    mcaprec check "$recorded" >"$room/stdout" || say_wrong "$recorded breaks a rule: $(cat -- "$room/stdout")"
}

filter='sed s/bytes=[0-9]*/bytes=N/'
two_lines='feed 1 accepted=5 refused=0 passed=0 end
feed 2 accepted=1 refused=0 passed=0 end
file records=10 blocks=1 bytes=N closed'
expect 0 "$two_lines" '' mcaprec record two.mcap "$session" "$one"
expect_messages_of two.mcap "$session" "$one"
expect 0 "$two_lines" '' mcaprec record --lossless --limit 1 -- two.mcap "$session" "$one"
expect_messages_of two.mcap "$session" "$one"
expect 0 'feed 1 accepted=5 refused=0 passed=0 end
feed 2 accepted=5 refused=0 passed=0 end
file records=13 blocks=0 bytes=N closed' '' mcaprec record --plain twice.mcap "$session" "$session"
expect_messages_of twice.mcap "$session" "$session"
expect 1 'feed 1 accepted=5 refused=0 passed=0 end
feed 2 accepted=0 refused=0 passed=0 grammar 25
feed 3 accepted=1 refused=0 passed=0 end
file records=10 blocks=1 bytes=N closed' 'mcaprec: "cut.mcap": grammar at 25' mcaprec record two.mcap "$session" cut.mcap "$one"
expect_messages_of two.mcap "$session" "$one"
filter='cat'
expect 2 '' "$usage" mcaprec record two.mcap
expect 2 '' "$usage" mcaprec record two.mcap "$session" two.mcap
expect 2 '' "$usage" mcaprec record two.mcap "$session" ''
# shellcheck disable=SC2046  # each is a word
expect 2 '' "$usage" mcaprec record two.mcap $(yes "$sample" | head -n 65)
# Where a feed isn't there nothing is opened behind it, and the output stays as it was.
expect 3 '' 'mcaprec: "missing.mcap": fault' mcaprec record two.mcap "$session" missing.mcap "$one"
expect_messages_of two.mcap "$session" "$one"

# 64 feeds of one message each, on topics of their own.
n=1
while [ "$n" -le 64 ]; do
    letter=$((n + 47))
    [ "$letter" -lt 92 ] || letter=$((letter + 1))
    LC_ALL=C sed "s,/a,/$(printf "\\$(printf %o "$letter")"),g" <one-plain.mcap >"single-$n.mcap"
    n=$((n + 1))
done
mcaprec record --lossless sixty-four.mcap single-*.mcap >"$room/stdout" 2>&1 || say_wrong '64 feeds are not recorded'
compare 'the lines of 64 feeds' 64 "$(grep -c 'accepted=1 refused=0 passed=0 end' "$room/stdout")"
expect_messages_of sixty-four.mcap single-*.mcap
# The same by 64 pipes, each written by a process of its own.
for single in single-*.mcap; do mkfifo "pipe-of-$single" && cat "$single" >"pipe-of-$single" & done
while [ "$(find . -name 'pipe-of-*' | wc -l)" -lt 64 ]; do sleep 0.1; done
mcaprec record --lossless sixty-four.mcap pipe-of-single-*.mcap >"$room/stdout" 2>&1 || say_wrong '64 pipes are not recorded'
compare 'the lines of 64 pipes' 64 "$(grep -c 'accepted=1 refused=0 passed=0 end' "$room/stdout")"
expect_messages_of sixty-four.mcap single-*.mcap
wait
expect 0 'merged inputs=64 messages=64 records=128' '' mcaprec merge merged.mcap single-*.mcap
# shellcheck disable=SC2046  # each is a word
expect 2 '' "$usage" mcaprec merge merged.mcap $(yes "$sample" | head -n 65)
rm -f single-*.mcap pipe-of-* merged.mcap

# Four pipes that four processes write at once, one of which is killed in the midst of a message.
for n in 1 2 3 4; do mkfifo "pipe-$n"; done
for n in 1 2 3; do cat many.mcap >"pipe-$n" & done
{ head -c 200000 many.mcap && exec sleep 50; } >pipe-4 &
publisher=$!
{ sleep 3 && kill -9 "$publisher"; } &
mcaprec record --lossless four.mcap pipe-1 pipe-2 pipe-3 pipe-4 >"$room/stdout" 2>"$room/stderr"
compare 'the status of four feeds, one of which ends early' 1 $?
cat -- "$room/stdout" "$room/stderr"
compare 'the lines of the three whole feeds' 3 "$(grep -c 'accepted=8192 refused=0 passed=0 end' "$room/stdout")"
compare 'the line of the feed that ended early' 'feed 4 accepted=4995 refused=0 passed=0 grammar 199976' "$(sed -n 4p "$room/stdout")"
compare 'what is said of it' 'mcaprec: "pipe-4": grammar at 199976' "$(cat -- "$room/stderr")"
expect 0 "ok indexed messages=$((3 * 8192 + 4995)) channels=1 schemas=1 chunks=2 attachments=0 metadata=0" '' mcaprec check four.mcap
wait

# A slow feed behind one that is silent: what it sends is written meanwhile, though no feed has ended, in blocks of one record
# and at top level.
mcaprec cat session-out.mcap | cut -d ' ' -f 1,2,4- | head -n 3 >wanted
expect_slow_feed_written() {
    { head -c 292 -- "$session" && exec sleep 50; } >pipe-1 &
    publisher=$!
    sleep 50 >pipe-2 &
    silent=$!
    mcaprec record "$@" slow.mcap pipe-2 pipe-1 >/dev/null 2>&1 &
    launcher=$!
    sleep 3
    kill -9 "$(pgrep -P "$launcher" mcap_cli)"
    kill "$publisher" "$silent"
    wait
    filter='sed s/at=[0-9]*/at=N/'
    expect 0 'recovered messages=3 records=6 extras=0 at=N short' '' mcaprec recover slow.mcap saved.mcap
    filter='cat'
    expect 0 'ok indexed messages=3 channels=2 schemas=1 chunks=1 attachments=0 metadata=0' '' mcaprec check saved.mcap
    mcaprec cat saved.mcap | cut -d ' ' -f 1,2,4- | cmp -s -- wanted - || say_wrong 'saved.mcap has other messages than its feed had'
}
expect_slow_feed_written --chunk 1
expect_slow_feed_written --plain

# So is what a feed sent last that has ended beside a silent one.
expect_ended_feed_written() {
    sleep 50 >pipe-2 &
    silent=$!
    mcaprec record "$@" slow.mcap pipe-2 "$session" >/dev/null 2>&1 &
    launcher=$!
    sleep 3
    kill -9 "$(pgrep -P "$launcher" mcap_cli)"
    kill "$silent"
    wait
    filter='sed s/at=[0-9]*/at=N/'
    expect 0 'recovered messages=5 records=8 extras=0 at=N short' '' mcaprec recover slow.mcap saved.mcap
    filter='cat'
}
expect_ended_feed_written --chunk 1
expect_ended_feed_written --plain

# ---- watchers

# The CRC-32 of what comes in, as gzip has it.
crc_of() {
    gzip -c | tail -c 8 | od -An -N4 -tx4 | tr -d ' '
}
# That a watch file has fronts, each with at least twice as many blocks as the one before, and then this end and these lines.
expect_watched() {
    compare "the end of $1" "$2" "$(sed '/^front /d' "$1")"
    awk '/^front / { if (ended || $2 < 1 || $2 < 2 * last) { exit 1 } last = $2; next } { ended = 1 }' "$1" ||
        say_wrong "$1 has fronts that aren't doubled, or behind its end"
}
# That it has such a front of so many blocks and messages alone, with the CRC of these lines, or none.
expect_front() {
    line="front $2 $(printf %s "$3" | crc_of)"
    got=$(sed -n '/^front /p' "$1")
    [ -z "$got" ] || compare "the front of $1" "$line" "$got"
}

one_line='10 9 1 1 "/a" aa'
expect 0 'feed 1 accepted=1 refused=0 passed=0 end
file records=2 blocks=1 bytes=476 closed' '' mcaprec record --watchers 1 watched.mcap "$one"
expect_watched watched.mcap.watch1 "end closed 1 1
$one_line"
expect_front watched.mcap.watch1 '1 1' "$one_line
"
expect_absent watched.mcap.watch2

# A time that no message has; and one of two of the session's, whose other messages the watcher doesn't count.
expect 0 'feed 1 accepted=1 refused=0 passed=0 end
file records=2 blocks=1 bytes=476 closed' '' mcaprec record --watch 11:18446744073709551615 watched.mcap "$one"
expect_watched watched.mcap.watch1 'end closed 1 0'
expect_front watched.mcap.watch1 '1 0' ''
filter='sed s/bytes=[0-9]*/bytes=N/'
expect 0 'feed 1 accepted=5 refused=0 passed=0 end
file records=8 blocks=1 bytes=N closed' '' mcaprec record --watch 1005:1020 watched.mcap "$session"
part=$(mcaprec cat --start 1005 --end 1020 watched.mcap)
expect_watched watched.mcap.watch1 "end closed 1 2
$part"
expect_front watched.mcap.watch1 '1 2' "$part
"

# Sixteen watchers of four feeds, one of them a pipe that goes on when the first watcher has told a front.
for n in 1 2 3; do cp -- many.mcap "watched-$n"; done
rm -f watched.mcap.watch*
{
    head -c 100000 many.mcap
    for _ in 1 2 3 4 5 6 7 8 9 10 11 12 13 14 15 16 17 18 19 20; do
        if grep -q '^front ' watched.mcap.watch1 2>/dev/null; then break; fi
        sleep 0.5
    done
    cp -- watched.mcap.watch1 watched-meanwhile
    tail -c +100001 many.mcap
} >pipe &
expect 0 'feed 1 accepted=8192 refused=0 passed=0 end
feed 2 accepted=8192 refused=0 passed=0 end
feed 3 accepted=8192 refused=0 passed=0 end
feed 4 accepted=8192 refused=0 passed=0 end
file records=32770 blocks=14 bytes=N closed' '' mcaprec record --lossless --chunk 100000 --watchers 16 watched.mcap pipe watched-1 watched-2 watched-3
wait
filter='cat'
grep -q '^front ' watched-meanwhile || say_wrong 'the first watcher told no front while a feed went on'
! grep -q '^end ' watched-meanwhile || say_wrong 'the first watcher told an end while a feed went on'
mcaprec cat watched.mcap >watched-lines
for n in 1 2 3 4 5 6 7 8 9 10 11 12 13 14 15 16; do
    sed '/^front /d; /^end /d' "watched.mcap.watch$n" | cmp -s -- - watched-lines || say_wrong "watched.mcap.watch$n has other lines than watched.mcap"
    compare "the end of watched.mcap.watch$n" 'end closed 14 32768' "$(sed -n '/^end /p' "watched.mcap.watch$n")"
done
rm -f watched.mcap.watch* watched-*

# A watch file that takes nothing: that watcher ends, and nothing else is lost.
ln -s /dev/full watched.mcap.watch1
expect 3 'feed 1 accepted=1 refused=0 passed=0 end
file records=2 blocks=1 bytes=476 closed' 'mcaprec: "watched.mcap.watch1": fault' mcaprec record --watchers 2 watched.mcap "$one"
compare 'watched.mcap' "$(digits_of "$one")" "$(digits_of watched.mcap)"
expect_watched watched.mcap.watch2 "end closed 1 1
$one_line"
rm -f watched.mcap.watch*
# One that can't be made: nothing else is done.
mkdir watched.mcap.watch2
rm -f watched.mcap
expect 3 '' 'mcaprec: "watched.mcap.watch2": fault' mcaprec record --watchers 3 watched.mcap "$one"
expect_absent watched.mcap.watch3
rmdir watched.mcap.watch2
rm -f watched.mcap watched.mcap.watch*
for words in '--plain --watchers 1' '--watchers 17' '--watch 1' '--watch 1:' '--watch 5:6:7' '--watchers 1 --watchers 1'; do
    # shellcheck disable=SC2086  # the words are to be split
    expect 2 '' "$usage" mcaprec record $words watched.mcap "$one"
done
expect 2 '' "$usage" mcaprec record --watchers 2 watched.mcap "$one" watched.mcap.watch2
expect_absent watched.mcap

# ---- what a file holds that is cut

expect 2 '' "$usage" mcaprec recover "$one"
expect 2 '' "$usage" mcaprec recover one-cut.mcap one-cut.mcap
expect 0 'recovered messages=1 records=2 extras=0 at=173 short' '' mcaprec recover one-cut.mcap one-recovered.mcap
expect_records_of one-recovered.mcap "$one"
expect 0 'recovered messages=1 records=2 extras=0 at=186 complete' '' mcaprec recover one-recovered.mcap one-again.mcap
expect_records_of one-again.mcap "$one"
: >no-bytes.mcap
expect 1 '' 'mcaprec: "no-bytes.mcap": grammar at 0' mcaprec recover no-bytes.mcap of-no-bytes.mcap
expect_size of-no-bytes.mcap 0
expect 3 '' 'mcaprec: "missing.mcap": fault' mcaprec recover missing.mcap of-missing.mcap
expect_absent of-missing.mcap
ln -s one-recovered.mcap recovered-link.mcap
expect 3 '' 'mcaprec: "recovered-link.mcap": fault' mcaprec recover one-recovered.mcap recovered-link.mcap
expect_records_of one-recovered.mcap "$one"

# ---- files that are merged

expect 2 '' "$usage" mcaprec merge "$one"
expect 2 '' "$usage" mcaprec merge merged.mcap "$one" merged.mcap
expect 0 'merged inputs=2 messages=2 records=3' '' mcaprec merge merged.mcap "$one" "$one"
expect_size merged.mcap 524
expect 0 '10 9 1 1 "/a" aa
10 9 1 1 "/a" aa' '' mcaprec cat --indexed merged.mcap
expect 0 'merged inputs=2 messages=6 records=10' '' mcaprec merge merged.mcap "$session" "$one"
[ "$(mcaprec cat merged.mcap | head -n 1)" = '10 9 1 1 "/a" aa' ] || say_wrong 'merged.mcap has its first message not on the first channel'
expect 0 'ok indexed messages=6 channels=3 schemas=1 chunks=1 attachments=0 metadata=0' '' mcaprec check merged.mcap
expect 1 '' 'mcaprec: "cut.mcap": grammar at 25' mcaprec merge merged-cut.mcap "$one" cut.mcap
expect_size merged-cut.mcap 0
expect 3 '' 'mcaprec: "missing.mcap": fault' mcaprec merge merged-none.mcap "$one" missing.mcap
expect_absent merged-none.mcap
expect 3 '' 'mcaprec: "recovered-link.mcap": fault' mcaprec merge recovered-link.mcap one-recovered.mcap
expect_records_of one-recovered.mcap "$one"

# ---- files that are filtered and sorted

expect 2 '' "$usage" mcaprec filter --topic /imu "$session"
expect 2 '' "$usage" mcaprec filter "$session" "$session"
expect 2 '' "$usage" mcaprec sort --topic /imu "$session" sorted.mcap
expect 0 'filtered messages=3 records=5' '' mcaprec filter --topic /imu "$session" filtered.mcap
expect 0 '1000 990 5 1 "/imu" 7b227a223a392e387d
1010 1000 5 2 "/imu" 7b227a223a392e377d
1020 1010 5 3 "/imu" -' '' mcaprec cat --indexed filtered.mcap
expect 0 'ok indexed messages=3 channels=1 schemas=1 chunks=1 attachments=0 metadata=0' '' mcaprec check filtered.mcap
expect 0 'filtered messages=2 records=4' '' mcaprec filter --start 1010 --end 1030 "$session" filtered.mcap
expect 0 'filtered messages=0 records=0' '' mcaprec filter --topic imu "$session" filtered.mcap
expect_size filtered.mcap 165
expect 1 '' 'mcaprec: "cut.mcap": grammar at 25' mcaprec filter cut.mcap filtered.mcap
expect 3 '' 'mcaprec: "missing.mcap": fault' mcaprec filter missing.mcap filtered-none.mcap
expect_absent filtered-none.mcap
expect 0 'sorted messages=5 records=8' '' mcaprec sort "$session" sorted.mcap
expect 0 "$(mcaprec cat "$session")" '' mcaprec cat --indexed sorted.mcap
expect 1 '' 'mcaprec: "cut.mcap": grammar at 25' mcaprec sort cut.mcap sorted.mcap
expect_size sorted.mcap 0

# ---- a file that is played

printf 'at 0\nat 5\nseek 6 1020\n' >script
expect 0 'moment 0 1
1000 990 5 1 "/imu" 7b227a223a392e387d
moment 5 1
1005 1005 2 1 "/log" 7374617274
moment 6 1
1020 1010 5 3 "/imu" -' '' mcaprec play "$session" script
printf 'at 0\nat\n' >script
expect 1 '' 'mcaprec: "script": line 2' mcaprec play "$session" script
expect 1 '' 'mcaprec: "cut.mcap": grammar at 25' mcaprec play cut.mcap script
expect 3 '' 'mcaprec: "no-script": fault' mcaprec play "$session" no-script

# ---- feeds that are generated

expect 2 '' "$usage" mcaprec gen 7 8 generated.mcap
expect 2 '' "$usage" mcaprec gen 7 65 1 generated.mcap
expect 2 '' "$usage" mcaprec gen 7 8 125001 generated.mcap
expect_absent generated.mcap
expect 0 'gen feeds=2 messages=0 data=0 sum=0' '' mcaprec gen 0 2 0 generated.mcap
expect 0 'gen feeds=1 messages=1 data=63 sum=12840' '' mcaprec gen 0 1 1 generated.mcap
expect 0 'gen feeds=8 messages=160000 data=5044926 sum=1600698916348' '' mcaprec gen 7 8 20000 generated.mcap
generated_checked=$(mcaprec check generated.mcap </dev/null)
compare 'a check of generated feeds' 'ok indexed messages=160000 channels=8 schemas=0' "${generated_checked%% chunks=*}"
expect 0 'gen feeds=8 messages=160000 data=5044926 sum=1600698916348' '' mcaprec gen 7 8 20000 generated.mcap
expect 3 '' 'mcaprec: "missing/generated.mcap": fault' mcaprec gen 0 1 1 missing/generated.mcap

# ---- messages, by time

session_messages='1000 990 1 1 "/imu" 7b227a223a392e387d
1005 1005 2 1 "/log" 7374617274
1010 1000 1 2 "/imu" 7b227a223a392e377d
1020 1010 1 3 "/imu" -
1030 1030 2 2 "/log" 73746f70'
expect 2 '' "$usage" mcaprec cat
expect 0 '10 9 1 1 "/a" aa' '' mcaprec cat "$one"
expect 0 '10 9 1 1 "/a" aa' '' mcaprec cat one-small.mcap
expect 0 "$session_messages" '' mcaprec cat session-out.mcap
expect 0 'feed 1 accepted=5 refused=0 passed=0 end
file records=8 blocks=1 bytes=987 closed' '' mcaprec record session-chunks.mcap "$session"
expect 0 "$session_messages" '' mcaprec cat session-chunks.mcap
expect 0 '' '' mcaprec cat out.mcap
cat -- session-out.mcap >pipe &
expect 0 "$session_messages" '' mcaprec cat pipe
wait
expect 1 '' 'mcaprec: "cut.mcap": grammar at 25' mcaprec cat cut.mcap
{ head -c 25 -- "$sample" && printf '\005\0\0\0\0\0\0\0\200'; } >long.mcap
expect 4 '' 'mcaprec: "long.mcap": limit at 25' mcaprec cat long.mcap
expect 4 "$feed_line limit 25
$file_line" 'mcaprec: "long.mcap": limit at 25' mcaprec record --plain long-out.mcap long.mcap
: >none.mcap
expect 1 '' 'mcaprec: "none.mcap": grammar at 0' mcaprec cat none.mcap
mkdir folder
expect 3 '' 'mcaprec: "folder": fault' mcaprec cat folder
expect 3 '' 'mcaprec: "folder": fault' mcaprec record --plain folder-out.mcap folder
expect_absent folder-out.mcap
expect 3 '' 'mcaprec: "missing.mcap": fault' mcaprec cat missing.mcap
# shellcheck disable=SC2016  # the inner shell is to expand it
expect 3 '' 'mcaprec: output: fault' sh -c 'mcaprec cat "$1" >/dev/full' sh session-out.mcap

# ---- by the indexes, and by topic

later='1010 1000 1 2 "/imu" 7b227a223a392e377d
1020 1010 1 3 "/imu" -'
expect 0 "$session_messages" '' mcaprec cat --indexed session-chunks.mcap
expect 0 "$later" '' mcaprec cat --topic /imu --start 1010 session-chunks.mcap
expect 0 "$later" '' mcaprec cat session-chunks.mcap --indexed --start=1010 --topic=/imu
expect 0 '1005 1005 2 1 "/log" 7374617274' '' mcaprec cat --indexed --start 1001 --end 1010 -- session-chunks.mcap
expect 0 '' '' mcaprec cat --indexed --start 1031 session-chunks.mcap
expect 0 '5 9 1 3 "/imu" 77
10 9 1 1 "/imu" aa
11 9 1 2 "/imu" bb
12 9 2 1 "/log" -
20 9 2 2 "/log" 71' '' mcaprec cat --indexed "$other"
# A file of many blocks of 16 KiB, as a store over a file reads it.
mcaprec record --chunk 65536 many-chunks.mcap many.mcap >/dev/null
mcaprec cat many-chunks.mcap >many-scanned
mcaprec cat --indexed many-chunks.mcap >many-indexed
[ "$(wc -l <many-indexed)" -eq 8192 ] || say_wrong 'cat --indexed of many.mcap has other lines'
cmp -s many-scanned many-indexed || say_wrong 'cat --indexed of many.mcap is not its cat'
expect 1 '' 'mcaprec: "session-out.mcap": not indexed: no summary' mcaprec cat --indexed session-out.mcap
expect 1 '' 'mcaprec: "none.mcap": flaw V1 at 0' mcaprec cat --indexed none.mcap
expect 3 '' 'mcaprec: "folder": fault' mcaprec cat --indexed folder
expect 3 '' 'mcaprec: "missing.mcap": fault' mcaprec cat --indexed missing.mcap
expect 2 '' "$usage" mcaprec cat --start session-chunks.mcap
expect 2 '' "$usage" mcaprec cat --top /imu session-chunks.mcap

# ---- what a file holds

one_told='{"attachments":0,"channels":[{"count":1,"encoding":"","id":1,"schema":0,"topic":"/a"}],"chunks":1,"compression":[""],"end":10,"library":"mcaprec 1","messages":1,"metadata":0,"profile":"","schemas":[],"start":10}'
session_told='{"attachments":0,"channels":[{"count":3,"encoding":"json","id":1,"schema":1,"topic":"/imu"},{"count":2,"encoding":"","id":2,"schema":0,"topic":"/log"}],"chunks":1,"compression":[""],"end":1030,"library":"mcaprec 1","messages":5,"metadata":0,"profile":"drone","schemas":[{"encoding":"jsonschema","id":1,"name":"Imu"}],"start":1000}'
expect 0 "$one_told" '' mcaprec info "$one"
expect 0 'feed 1 accepted=5 refused=0 passed=0 end
file records=8 blocks=1 bytes=992 closed' '' mcaprec record --lossless --limit 1 --profile drone drone.mcap "$session"
expect 0 "$session_told" '' mcaprec info drone.mcap
expect 1 '' 'mcaprec: "session-out.mcap": not indexed: no summary' mcaprec info session-out.mcap
expect 1 '' 'mcaprec: "none.mcap": grammar at 0' mcaprec info none.mcap
expect 3 '' 'mcaprec: "folder": fault' mcaprec info folder
expect 3 '' 'mcaprec: "missing.mcap": fault' mcaprec info missing.mcap
# shellcheck disable=SC2016  # the inner shell is to expand it
expect 3 '' 'mcaprec: output: fault' sh -c 'mcaprec info "$1" >/dev/full' sh "$one"
expect 2 '' "$usage" mcaprec info

# ---- checks

expect 2 '' "$usage" mcaprec check
expect 2 '' "$usage" mcaprec check "$one" "$one"
expect 0 'ok indexed messages=1 channels=1 schemas=0 chunks=1 attachments=0 metadata=0' '' mcaprec check "$one"
expect 0 'ok indexed messages=1 channels=1 schemas=0 chunks=2 attachments=0 metadata=0' '' mcaprec check one-small.mcap
expect 0 'ok plain messages=1 channels=1 schemas=0 chunks=0 attachments=0 metadata=0' '' mcaprec check one-plain.mcap
expect 0 'ok indexed messages=5 channels=2 schemas=1 chunks=1 attachments=0 metadata=0' '' mcaprec check session-chunks.mcap
expect 0 'ok plain messages=5 channels=2 schemas=1 chunks=0 attachments=0 metadata=0' '' mcaprec check session-out.mcap
expect 0 'ok indexed messages=0 channels=0 schemas=0 chunks=0 attachments=0 metadata=0' '' mcaprec check indexed.mcap
expect 0 'ok plain messages=0 channels=0 schemas=0 chunks=0 attachments=0 metadata=0' '' mcaprec check out.mcap
expect 0 'ok plain messages=8192 channels=1 schemas=1 chunks=0 attachments=0 metadata=0' '' mcaprec check many-out.mcap

# Another writer leaves out each crc, puts bytes behind the fields of a Channel and a record of an unknown kind between chunks,
# lists entries and indexes in other orders, and has a Schema in the summary alone.
expect 0 'ok indexed messages=5 channels=3 schemas=2 chunks=3 attachments=1 metadata=1' '' mcaprec check "$other"
expect 0 '5 9 1 3 "/imu" 77
10 9 1 1 "/imu" aa
11 9 1 2 "/imu" bb
12 9 2 1 "/log" -
20 9 2 2 "/log" 71' '' mcaprec cat "$other"

# The offsets at which the records of a file begin, up to the one behind its Data End.
places() {
    place=8
    while :; do
        printf '%s ' "$place"
        opcode=$(od -An -tu1 -j "$place" -N 1 -- "$1" | tr -d ' ')
        place=$((place + 9 + $(od -An -tu8 -j $((place + 1)) -N 8 -- "$1" | tr -d ' ')))
        [ "$opcode" -ne 15 ] || break
    done
    printf '%s\n' "$place"
}
# What a check says of the first bytes of a file, so many, whose records begin there: where its data ends, or that the last magic
# isn't there, where no more is left of a record than that.
cut_flaw() {
    if [ "$1" -lt 8 ]; then
        echo 'flaw V1 at 0'
        return
    fi
    begin=8
    for place in $2; do
        [ "$place" -gt "$1" ] || begin=$place
    done
    if [ "$begin" -eq "${2##* }" ] || [ $(($1 - begin)) -le 8 ]; then
        echo "flaw V2 at $(($1 - 8))"
    else
        echo "flaw V4 at $begin"
    fi
}

# Each first part of two files, by the program that the launcher built. Of what is left a sound file is made.
for cut in one session-chunks; do
    if [ "$cut" = one ]; then whole=$one; else whole=$cut.mcap; fi
    size=$(($(wc -c <"$whole")))
    begins=$(places "$whole")
    n=0
    while [ "$n" -lt "$size" ]; do
        head -c "$n" -- "$whole" >checked.mcap
        said=$("$root/crates/mcap_cli/out/mcap_cli" check checked.mcap 2>&1)
        compare "the status of a check of $n bytes of $cut" 1 $?
        compare "a check of $n bytes of $cut" "$(cut_flaw "$n" "$begins")" "$said"
        n=$((n + 1))
    done
done
# A file of 4.5 GB: behind the Header 17 records of an unknown kind of 256 MiB each, which take no room on the disk, and then
# what one.mcap has there. Each offset is greater by that.
number() {
    number_bytes=$1 number_rest=$2
    while [ "$number_bytes" -gt 0 ]; do
        # shellcheck disable=SC2059  # the format is the byte
        printf "\\$(printf '%03o' $((number_rest % 256)))"
        number_rest=$((number_rest / 256)) number_bytes=$((number_bytes - 1))
    done
}
part() { tail -c +$(($2 + 1)) -- "$1" | head -c $(($3 - $2)); }
head -c 34 -- "$one" >huge.mcap
n=0
while [ "$n" -lt 17 ]; do
    { number 1 144 && number 8 268435456; } >>huge.mcap
    truncate -s +268435456 huge.mcap
    n=$((n + 1))
done
far=$((17 * 268435465))
{
    part "$one" 34 303 && number 8 $((far + 34)) && part "$one" 311 325 && number 8 $((far + 142)) && part "$one" 333 371
    number 8 $((far + 186)) && part "$one" 379 397 && number 8 $((far + 213)) && part "$one" 405 423
    number 8 $((far + 278)) && part "$one" 431 448 && number 8 $((far + 186)) && number 8 $((far + 361)) && number 4 0
    tail -c 8 -- "$one"
} >>huge.mcap
compare 'the size of huge.mcap' $((far + 476)) "$(($(wc -c <huge.mcap)))"
expect 0 'ok indexed messages=1 channels=1 schemas=0 chunks=1 attachments=0 metadata=0' '' mcaprec check huge.mcap
rm -f huge.mcap

# Each record in a chunk of its own: a schema, a channel and 131,072 messages.
dd if="$session" of=messages bs=1 skip=176 count=40 2>/dev/null
for _ in 1 2 3 4 5 6 7 8 9 10 11 12 13 14 15 16 17; do
    cat messages messages >doubled
    mv doubled messages
done
{ head -c 176 -- "$session" && cat messages && tail -c 13 -- "$session"; } >small.mcap
rm -f messages
filter='sed s/bytes=[0-9]*/bytes=N/'
expect 0 'feed 1 accepted=131072 refused=0 passed=0 end
file records=131074 blocks=131074 bytes=N closed' '' mcaprec record --chunk 1 small-out.mcap small.mcap
filter='cat'
expect 0 'ok indexed messages=131072 channels=1 schemas=1 chunks=131074 attachments=0 metadata=0' '' mcaprec check small-out.mcap
rm -f small.mcap small-out.mcap

expect 1 'flaw V2 at 165' '' mcaprec check one-cut.mcap
expect 0 'ok indexed messages=1 channels=1 schemas=0 chunks=1 attachments=0 metadata=0' '' mcaprec check one-again.mcap

expect 3 '' 'mcaprec: "folder": fault' mcaprec check folder
expect 3 '' 'mcaprec: "missing.mcap": fault' mcaprec check missing.mcap
# A pipe has no length.
cat -- "$one" >pipe 2>/dev/null &
expect 3 '' 'mcaprec: "pipe": fault' mcaprec check pipe
wait
expect 3 '' 'mcaprec: "/dev/null": fault' mcaprec check /dev/null
expect 1 'flaw V1 at 0' '' mcaprec check none.mcap
printf 'timestamp,value\n' >text.csv
expect 1 'flaw V1 at 0' '' mcaprec check text.csv
expect 1 '' 'mcaprec: "text.csv": flaw V1 at 0' mcaprec cat --indexed text.csv
expect 1 '' 'mcaprec: "text.csv": grammar at 0' mcaprec info text.csv
# shellcheck disable=SC2016  # the inner shell is to expand it
expect 3 '' 'mcaprec: output: fault' sh -c 'mcaprec check "$1" >/dev/full' sh "$one"

# ---- small files that once cost gigabytes or hours: each ends within a minute and little memory

# Writes by a program in awk, for which number(bytes, value), text(t), record(opcode, length), channel(id, schema, topic) and
# message(id, n) write.
writing() {
    LC_ALL=C awk "
        function number(bytes, value) { while (bytes-- > 0) { printf \"%c\", value % 256; value = int(value / 256) } }
        function text(t) { number(4, length(t)); printf \"%s\", t }
        function record(opcode, len) { number(1, opcode); number(8, len) }
        function channel(id, schema, topic) { record(4, 16 + length(topic)); number(2, id); number(2, schema); text(topic); number(4, 0); number(4, 0) }
        function message(id, n) { record(5, 22); number(2, id); number(4, n); number(8, n); number(8, n) }
        BEGIN { $1 }"
}
# A feed of a schema of so many bytes, so many channels of it with a message on each, and so many messages more on the last.
feed_of() {
    printf '\211MCAP0\r\n\001\010\0\0\0\0\0\0\0' && head -c 8 /dev/zero
    writing "size = $1; channels = $2; more = $3"'
        record(3, 16 + size); number(2, 1); text("s"); text("e"); number(4, size); for (k = 0; k < size; k++) { printf "x" }
        for (k = 0; k < channels; k++) { channel(k, 1, "/t" k); message(k, k) }
        for (k = 0; k < more; k++) { message(channels - 1, channels + k) }
        record(15, 4); number(4, 0)'
}
# An indexed file of one chunk of so many empty messages, with so many Chunk Indexes of it.
indexed_of() {
    printf '\211MCAP0\r\n\001\010\0\0\0\0\0\0\0' && head -c 8 /dev/zero
    writing "messages = $1; indexes = $2"'
        size = 27 + 31 * messages; list = 25 + 49 + size; start = list + 15 + 16 * messages + 13
        record(6, 40 + size); number(8, 0); number(8, messages - 1); number(8, size); number(4, 0); number(4, 0); number(8, size)
        channel(1, 0, "/a"); for (k = 0; k < messages; k++) { message(1, k) }
        record(7, 6 + 16 * messages); number(2, 1); number(4, 16 * messages)
        for (k = 0; k < messages; k++) { number(8, k); number(8, 27 + 31 * k) }
        record(15, 4); number(4, 0)
        channel(1, 0, "/a")
        record(11, 46); number(8, messages); number(2, 0); number(4, 1); number(4, 0); number(4, 0); number(4, indexes)
        number(8, 0); number(8, messages - 1); number(4, 0)
        for (k = 0; k < indexes; k++) {
            record(8, 74); number(8, 0); number(8, messages - 1); number(8, 25); number(8, 49 + size)
            number(4, 10); number(2, 1); number(8, list); number(8, 15 + 16 * messages); number(4, 0); number(8, size); number(8, size)
        }
        record(2, 20); number(8, start); number(8, 0); number(4, 0)'
    printf '\211MCAP0\r\n'
}
# An indexed file of one chunk of one message of so many bytes of data, with so many entries that lead to it.
repeated_of() {
    printf '\211MCAP0\r\n\001\010\0\0\0\0\0\0\0' && head -c 8 /dev/zero
    writing "data = $1; entries = $2"'
        size = 27 + 31 + data; list = 25 + 49 + size; start = list + 15 + 16 * entries + 13
        record(6, 40 + size); number(8, 1); number(8, 1); number(8, size); number(4, 0); number(4, 0); number(8, size)
        channel(1, 0, "/a"); record(5, 22 + data); number(2, 1); number(4, 1); number(8, 1); number(8, 1)
        for (k = 0; k < data; k++) { printf "x" }
        record(7, 6 + 16 * entries); number(2, 1); number(4, 16 * entries)
        for (k = 0; k < entries; k++) { number(8, 1); number(8, 27) }
        record(15, 4); number(4, 0)
        channel(1, 0, "/a")
        record(11, 46); number(8, 1); number(2, 0); number(4, 1); number(4, 0); number(4, 0); number(4, 1); number(8, 1); number(8, 1); number(4, 0)
        record(8, 74); number(8, 1); number(8, 1); number(8, 25); number(8, 49 + size)
        number(4, 10); number(2, 1); number(8, list); number(8, 15 + 16 * entries); number(4, 0); number(8, size); number(8, size)
        record(2, 20); number(8, start); number(8, 0); number(4, 0)'
    printf '\211MCAP0\r\n'
}
# An indexed file of one chunk of so many messages, each of which has all that follow it as its data.
nested_of() {
    printf '\211MCAP0\r\n\001\010\0\0\0\0\0\0\0' && head -c 8 /dev/zero
    writing "messages = $1"'
        size = 27 + 31 * messages; list = 25 + 49 + size; start = list + 15 + 16 * messages + 13
        record(6, 40 + size); number(8, 0); number(8, messages - 1); number(8, size); number(4, 0); number(4, 0); number(8, size)
        channel(1, 0, "/a")
        for (k = 0; k < messages; k++) { record(5, 22 + 31 * (messages - 1 - k)); number(2, 1); number(4, k); number(8, k); number(8, k) }
        record(7, 6 + 16 * messages); number(2, 1); number(4, 16 * messages)
        for (k = 0; k < messages; k++) { number(8, k); number(8, 27 + 31 * k) }
        record(15, 4); number(4, 0)
        channel(1, 0, "/a")
        record(11, 46); number(8, messages); number(2, 0); number(4, 1); number(4, 0); number(4, 0); number(4, 1)
        number(8, 0); number(8, messages - 1); number(4, 0)
        record(8, 74); number(8, 0); number(8, messages - 1); number(8, 25); number(8, 49 + size)
        number(4, 10); number(2, 1); number(8, list); number(8, 15 + 16 * messages); number(4, 0); number(8, size); number(8, size)
        record(2, 20); number(8, start); number(8, 0); number(4, 0)'
    printf '\211MCAP0\r\n'
}
# A plain file of one Metadata with so many keys, not in order.
keyed_of() {
    printf '\211MCAP0\r\n\001\010\0\0\0\0\0\0\0' && head -c 8 /dev/zero
    writing "keys = $1"'
        record(12, 9 + 16 * keys); text("k"); number(4, 16 * keys)
        for (k = 0; k < keys; k++) { text(sprintf("%08d", (k * 7919) % keys)); text("") }
        record(15, 4); number(4, 0); record(2, 20); number(8, 0); number(8, 0); number(4, 0)'
    printf '\211MCAP0\r\n'
}
# A feed of a channel whose map has so many keys, not in order, and of so many messages on it.
mapped_of() {
    printf '\211MCAP0\r\n\001\010\0\0\0\0\0\0\0' && head -c 8 /dev/zero
    writing "keys = $1; messages = $2"'
        record(4, 18 + 16 * keys); number(2, 1); number(2, 0); text("/a"); number(4, 0); number(4, 16 * keys)
        for (k = 0; k < keys; k++) { text(sprintf("%08d", (k * 7919) % keys)); text("") }
        for (k = 0; k < messages; k++) { message(1, k) }
        record(15, 4); number(4, 0)'
}
# Runs a command with so many KiB of memory and at most a minute of the processor.
within() {
    # shellcheck disable=SC2016  # the inner shell is to expand them
    sh -c 'ulimit -v "$1"; ulimit -t 60; shift; "$@"' sh "$@"
}

# The buffers of a recording are reserved whole, which takes 277 MB; a schema is held once however many channels have it.
feed_of 900000 65535 0 >wide.mcap
filter='sed s/bytes=[0-9]*/bytes=N/'
expect 0 'feed 1 accepted=65535 refused=0 passed=0 end
file records=131071 blocks=7 bytes=N closed' '' within 800000 mcaprec record wide-out.mcap wide.mcap
feed_of 900000 65536 500000 >wide.mcap
expect 4 'feed 1 accepted=65535 refused=500001 passed=0 end
file records=131071 blocks=7 bytes=N closed' 'mcaprec: "wide-out.mcap": limit' within 800000 mcaprec record wide-out.mcap wide.mcap
feed_of 1 65535 100000 >wide.mcap
expect 0 'feed 1 accepted=165535 refused=0 passed=0 end
file records=231071 blocks=231071 bytes=N closed' '' within 800000 mcaprec record --chunk 1 wide-out.mcap wide.mcap
filter='cat'
# A channel that is too long for a declaration is measured once, not at each of its messages.
mapped_of 100000 20000 >wide.mcap
expect 4 'feed 1 accepted=0 refused=20000 passed=0 end
file records=0 blocks=0 bytes=165 closed' 'mcaprec: "wide-out.mcap": limit' within 800000 mcaprec record wide-out.mcap wide.mcap
rm -f wide.mcap wide-out.mcap

indexed_of 20000 1 >led.mcap
expect 0 'ok indexed messages=20000 channels=1 schemas=0 chunks=1 attachments=0 metadata=0' '' within 100000 mcaprec check led.mcap
indexed_of 20000 10000 >led.mcap
within 100000 mcaprec cat --indexed led.mcap >"$room/stdout" 2>"$room/stderr"
compare 'the status where a chunk has 10,000 Chunk Indexes' 1 $?
compare 'what is said of them' 'mcaprec: "led.mcap": flaw V12 at N' "$(sed 's/at [0-9]*/at N/' "$room/stderr")"
rm -f led.mcap

repeated_of 1000000 1 >repeated.mcap
expect 0 'ok indexed messages=1 channels=1 schemas=0 chunks=1 attachments=0 metadata=0' '' within 100000 mcaprec check repeated.mcap
repeated_of 1000000 200000 >repeated.mcap
within 100000 mcaprec cat --indexed repeated.mcap >"$room/stdout" 2>"$room/stderr"
compare 'the status where an entry stands 200,000 times' 0 $?
compare 'the length of what is shown of its message' $((2 * 1000000 + 14)) "$(($(wc -c <"$room/stdout")))"
rm -f repeated.mcap

# Of messages that lie in one another no more is held than the file has bytes: the second one would be too much.
nested_of 1 >nested.mcap
expect 0 'ok indexed messages=1 channels=1 schemas=0 chunks=1 attachments=0 metadata=0' '' within 100000 mcaprec check nested.mcap
expect 0 '0 0 1 0 "/a" -' '' within 100000 mcaprec cat --indexed nested.mcap
nested_of 8000 >nested.mcap
expect 4 '' 'mcaprec: "nested.mcap": limit at 248101' within 100000 mcaprec cat --indexed nested.mcap
rm -f nested.mcap

keyed_of 40000 >keyed.mcap
expect 0 'ok plain messages=0 channels=0 schemas=0 chunks=0 attachments=0 metadata=1' '' within 100000 mcaprec check keyed.mcap
rm -f keyed.mcap

# ---- an output that is a pipe

mkfifo out-pipe
cat out-pipe >through-pipe.mcap &
expect 0 "$session_lines" '' mcaprec record --plain out-pipe "$session"
wait
expect_records through-pipe.mcap "$imu_first$log$log_1$imu_2$imu_3$log_2"

# A live feed doesn't wait for its output: what finds the buffer full is refused, and counted. The pipe takes some hundred
# blocks, and is read two seconds later. On a machine with other work the lane may be through before the writer has a
# processor, and then none of its messages finds room: that is recorded again.
for _ in 1 2 3 4 5; do
    { sleep 2 && cat; } <out-pipe >through-late.mcap &
    mcaprec record --limit 1 --chunk 1 out-pipe many.mcap >"$room/stdout" 2>&1
    compare 'the status of a recording that refused messages' 0 $?
    wait
    accepted=$(sed -n 's/^feed 1 accepted=\([0-9]*\) .*/\1/p' "$room/stdout")
    compare 'what is said of lost messages, and how often' \
        "mcaprec: $((8192 - accepted)) messages were lost, since the buffer was full when they came: with --lossless the feeds wait for room; a --limit above 1 bytes (at most 1073741824) holds more" \
        "$(sed '/^feed /d; /^file /d' "$room/stdout")"
    compare 'the line of a feed that met a full buffer' \
        "feed 1 accepted=$accepted refused=$((8192 - accepted)) passed=0 end" "$(sed -n 1p "$room/stdout")"
    [ "$accepted" -eq 0 ] || break
done
[ "$accepted" -lt 8192 ] || say_wrong 'no message was refused though the output stood still'
[ "$accepted" -gt 0 ] || say_wrong 'the writer took nothing while the lane ran'
expect 0 "ok indexed messages=$accepted channels=1 schemas=1 chunks=$((accepted + 2)) attachments=0 metadata=0" '' \
    mcaprec check through-late.mcap

# ---- an output that is another name of the feed: refused before anything is emptied

cp -- "$session" named.mcap
ln -s named.mcap link.mcap
ln named.mcap hard.mcap
expect 3 '' 'mcaprec: "link.mcap": fault' mcaprec record --plain link.mcap named.mcap
expect 3 '' 'mcaprec: "named.mcap": fault' mcaprec record --plain named.mcap link.mcap
expect 3 '' 'mcaprec: "hard.mcap": fault' mcaprec record --plain hard.mcap named.mcap
compare named.mcap "$(digits_of "$session")" "$(digits_of named.mcap)"
ln -s /dev/null nothing.mcap
expect 1 "$feed_line grammar 0
$file_line" 'mcaprec: "/dev/null": grammar at 0' mcaprec record --plain nothing.mcap /dev/null

# ---- an output that takes nothing, or a part

# That the file is a first part of the other one, and no more than so many bytes of it.
expect_first_part() {
    held=$(($(wc -c <"$1")))
    [ "$held" -le "$3" ] || say_wrong "$1 has $held bytes"
    head -c "$held" -- "$2" | cmp -s -- - "$1" || say_wrong "$1 is no first part of $2"
}

# The front goes through to the system, so a device that is full stops the recording there.
unwritten='file records=0 blocks=0 bytes=0 stopped fault'
expect 3 "$feed_line end
$unwritten" 'mcaprec: "/dev/full": fault' mcaprec record --plain /dev/full "$sample"
expect 3 "feed 1 accepted=0 refused=1 passed=0 ended
$unwritten" 'mcaprec: "/dev/full": fault' mcaprec record --plain /dev/full "$session"
stopped='file records=N blocks=N bytes=N stopped fault'
filter='sed s/[0-9][0-9]*/N/g'
expect 3 "feed N accepted=N refused=N passed=N ended
$stopped" 'mcaprec: "/dev/full": fault' mcaprec record --plain /dev/full many.mcap
filter='cat'
# Where the writer stops later a lane may have come to its feed's end before.
either='sed -e s/[0-9][0-9]*/N/g -e s/ended$/end/'

# A channel and a message of 3,955 bytes.
{
    printf '\211MCAP0\r\n\001\010\0\0\0\0\0\0\0' && head -c 8 /dev/zero
    printf '\004\022\0\0\0\0\0\0\0\007\0\0\0\002\0\0\0/a' && head -c 8 /dev/zero
    printf '\005\211\017\0\0\0\0\0\0\007\0\001\0\0\0\012\0\0\0\0\0\0\0\011\0\0\0\0\0\0\0' && head -c 3955 /dev/zero
    printf '\017\004\0\0\0\0\0\0\0\0\0\0\0'
} >last.mcap
last_lines='feed 1 accepted=1 refused=0 passed=0 end
file records=2 blocks=0'

# A file system of 1 MB: full, with room for a part of the file, and one that may only be read.
if mount -t tmpfs -o size=1m none "$disk" 2>/dev/null; then
    cp -- "$session" "$disk/feed.mcap"
    dd if=/dev/zero of="$disk/filling" bs=4096 count=512 2>/dev/null
    expect 3 "$feed_line end
$unwritten" "mcaprec: \"$disk/out.mcap\": fault" mcaprec record --plain "$disk/out.mcap" "$sample"
    expect_first_part "$disk/out.mcap" out.mcap 0
    dd if=/dev/zero of="$disk/filling" bs=4096 count=224 2>/dev/null
    filter=$either
    expect 3 "feed N accepted=N refused=N passed=N end
$stopped" "mcaprec: \"$disk/out.mcap\": fault" mcaprec record --plain "$disk/out.mcap" many.mcap
    filter='cat'
    expect_first_part "$disk/out.mcap" many-out.mcap 131072
    [ -s "$disk/out.mcap" ] || say_wrong "$disk/out.mcap is empty"

    # Room for all but the last byte: the file takes a page of 4,096 bytes and one more.
    expect 0 "$last_lines bytes=4097 closed" '' mcaprec record --plain last-out.mcap last.mcap
    rm -f -- "$disk/out.mcap"
    cat /dev/zero >"$disk/filling" 2>/dev/null
    truncate -s -4096 "$disk/filling"
    expect 3 "$last_lines bytes=4047 stopped fault" "mcaprec: \"$disk/out.mcap\": fault" \
        mcaprec record --plain "$disk/out.mcap" last.mcap
    compare 'the length of what the disk took' 4096 "$(($(wc -c <"$disk/out.mcap")))"
    expect_first_part "$disk/out.mcap" last-out.mcap 4096
    rm -f -- "$disk/filling"
    if mount -o remount,ro "$disk" 2>/dev/null; then
        expect 0 "$session_lines" '' mcaprec record --plain from-disk.mcap "$disk/feed.mcap"
        expect_records from-disk.mcap "$imu_first$log$log_1$imu_2$imu_3$log_2"
        expect 3 '' "mcaprec: \"$disk/new.mcap\": fault" mcaprec record --plain "$disk/new.mcap" "$sample"
        expect_absent "$disk/new.mcap"
    else
        skip 'a file system that may only be read, since mounting it again is not allowed'
    fi
else
    skip 'a full file system and one that may only be read, since mounting is not allowed'
fi

# ---- much data, through a pipe, and an end that comes at any time

# The channel /a of id 1, which stands in the sample from 186 to 213, and 24,576 messages of 3,986 bytes on it: 98 MB. A
# message of last.mcap, on the channel 7, stands from 52 on.
{
    printf '\005\211\017\0\0\0\0\0\0\001\0\001\0\0\0\012\0\0\0\0\0\0\0\011\0\0\0\0\0\0\0' && head -c 3955 /dev/zero
} >messages
cat messages messages messages >doubled
mv doubled messages
for _ in 1 2 3 4 5 6 7 8 9 10 11 12 13; do
    cat messages messages >doubled
    mv doubled messages
done
{ head -c 34 -- "$one" && tail -c +187 -- "$one" | head -c 27 && cat messages && tail -c 13 -- "$session"; } >large.mcap
rm -f messages
cat large.mcap >pipe &
filter='sed s/bytes=[0-9]*/bytes=N/'
expect 0 'feed 1 accepted=24576 refused=0 passed=0 end
file records=24577 blocks=125 bytes=N closed' '' mcaprec record large-out.mcap pipe
filter='cat'
wait
compare 'what was recorded of large.mcap' "$(mcaprec cat large.mcap | cksum)" "$(mcaprec cat large-out.mcap | cksum)"

# Half of it, and then nothing for a while: the program is ended meanwhile. It has written what came before.
{ head -c 50000000 large.mcap && exec sleep 30; } >pipe &
feeder=$!
mcaprec record killed.mcap pipe >/dev/null 2>&1 &
launcher=$!
for _ in 1 2 3 4 5 6 7 8 9 10 11 12 13 14 15 16 17 18 19 20; do
    if [ -e killed.mcap ] && [ "$(($(wc -c <killed.mcap)))" -gt 10000000 ]; then break; fi
    sleep 0.5
done
kill -9 "$(pgrep -P "$launcher" mcap_cli)"
kill "$feeder"
wait
[ "$(($(wc -c <killed.mcap)))" -gt 10000000 ] || say_wrong 'killed.mcap holds too little'
head -c "$(($(wc -c <killed.mcap)))" large-out.mcap | cmp -s -- - killed.mcap || say_wrong 'killed.mcap is no first part'
mcaprec cat killed.mcap >"$room/stdout" 2>"$room/stderr"
compare 'the status of an ended recording' 1 $?
compare 'what cat says of it' 'mcaprec: "killed.mcap": grammar at N' "$(sed 's/at [0-9]*/at N/' "$room/stderr")"

# What stood in whole blocks of it is the front of what the feed gave.
mcaprec recover killed.mcap recovered.mcap >"$room/stdout" 2>&1 || say_wrong 'killed.mcap is not recovered'
cat -- "$room/stdout"
saved=$(sed -n 's/^recovered messages=\([0-9]*\) .* short$/\1/p' "$room/stdout")
[ "${saved:-0}" -gt 1000 ] || say_wrong 'too little of killed.mcap is recovered'
mcaprec check recovered.mcap >"$room/stdout" || say_wrong 'recovered.mcap breaks a rule'
compare 'what is recovered' "ok indexed messages=$saved" "$(sed 's/ channels.*//' "$room/stdout")"
mcaprec cat recovered.mcap | cksum >wanted
mcaprec cat large.mcap | head -n "${saved:-0}" | cksum | cmp -s -- wanted - || say_wrong 'recovered.mcap has other messages than its feed had'
rm -f recovered.mcap

# A pipe whose reader goes away. The program doesn't read it too, which would keep it alive: its next write fails.
head -c 10 out-pipe >/dev/null &
filter=$either
expect 3 "feed N accepted=N refused=N passed=N end
$stopped" 'mcaprec: "out-pipe": fault' timeout 20 mcaprec record --plain out-pipe large.mcap
filter='cat'
wait
rm -f large.mcap large-out.mcap killed.mcap

# ---- interrupts, from a terminal

# Types these characters into a terminal in which the command runs, each after a while, and then waits for the command.
typing() {
    keys=$1
    shift
    { for key in $keys; do sleep 2; printf "$key"; done; sleep 2; } | timeout 60 script -qec "$*" /dev/null >"$room/terminal" 2>&1
}
if command -v script >/dev/null; then
    # A publisher that sends three messages and then waits; the interrupt ends it, and the file is closed.
    typing '\003' "sh -c 'trap : INT; { head -c 292 \"$session\"; exec sleep 50; } | \"$root/mcaprec\" record interrupted.mcap /dev/stdin; echo status \$?'"
    tr -d '\r' <"$room/terminal"
    grep -q 'feed 1 accepted=3 refused=0 passed=0 grammar 292' "$room/terminal" || say_wrong 'an interrupted recording says no report'
    grep -q '^status 1' "$room/terminal" || say_wrong 'an interrupted recording has another status'
    expect 0 'ok indexed messages=3 channels=2 schemas=1 chunks=1 attachments=0 metadata=0' '' mcaprec check interrupted.mcap
    # One whose publisher goes on: the interrupt ends it all the same, with what was sent, and the publisher's next write fails.
    mkfifo endless
    { head -c 292 "$session"; sleep 20; echo more; } >endless 2>/dev/null &
    publisher=$!
    typing '\003 \r' "sh -c 'trap : INT; \"$root/mcaprec\" record went-on.mcap endless; echo status \$?'"
    tr -d '\r' <"$room/terminal"
    grep -q 'feed 1 accepted=3 refused=0 passed=0 grammar 292' "$room/terminal" || say_wrong 'an interrupt does not end a recording whose publisher goes on'
    tr -d '\r' <"$room/terminal" | grep -q 'status 1$' || say_wrong 'a recording whose publisher goes on has another status'
    expect 0 'ok indexed messages=3 channels=2 schemas=1 chunks=1 attachments=0 metadata=0' '' mcaprec check went-on.mcap
    kill "$publisher"
    wait
    # One that no publisher has opened yet.
    typing '\003 \r' "sh -c 'trap : INT; \"$root/mcaprec\" record waited.mcap endless; echo status \$?'"
    tr -d '\r' <"$room/terminal"
    grep -q 'feed 1 accepted=0 refused=0 passed=0 grammar 0' "$room/terminal" || say_wrong 'an interrupt does not end a recording that waits for its pipe'
    expect 0 'ok indexed messages=0 channels=0 schemas=0 chunks=0 attachments=0 metadata=0' '' mcaprec check waited.mcap
    # What is no pipe is read on; the second interrupt ends it.
    typing '\003 \003' "sh -c 'trap : INT; \"$root/mcaprec\" record ended.mcap /dev/tty; echo status \$?'"
    tr -d '\r' <"$room/terminal"
    grep -q 'status 143' "$room/terminal" || say_wrong 'a second interrupt does not end a recording'
    rm -f endless went-on.mcap waited.mcap ended.mcap

    # A recording that is there isn't emptied without a word.
    cp interrupted.mcap there.mcap
    for words in "record there.mcap \"$session\"" "merge there.mcap interrupted.mcap" "recover interrupted.mcap there.mcap" "filter interrupted.mcap there.mcap"; do
        typing 'n\r' "sh -c '\"$root/mcaprec\" $words; echo status \$?'"
        grep -q 'empties it first' "$room/terminal" && grep -q 'status 1' "$room/terminal" || say_wrong "$words: does not ask"
        cmp -s interrupted.mcap there.mcap || say_wrong "$words: empties a recording though it was told not to"
    done
    typing 'y\r' "sh -c '\"$root/mcaprec\" merge there.mcap interrupted.mcap; echo status \$?'"
    grep -q 'empties it first' "$room/terminal" && grep -q 'status 0' "$room/terminal" || say_wrong 'a merge that may empty its output does not'
    typing '\r' "sh -c '\"$root/mcaprec\" --force merge there.mcap interrupted.mcap; echo status \$?'"
    ! grep -q 'empties it first' "$room/terminal" && grep -q 'status 0' "$room/terminal" || say_wrong '--force asks'
    # Where there is no terminal nothing is asked.
    expect 0 'merged inputs=1 messages=3 records=6' '' mcaprec merge there.mcap interrupted.mcap
    expect 0 'merged inputs=1 messages=3 records=6' '' mcaprec --force merge there.mcap interrupted.mcap
    rm -f there.mcap
else
    skip 'interrupts, since there is no script'
fi

# ---- help, and what the usage, the help and the manual say of the same

expect_answer() {
    "$@" >"$room/stdout" 2>"$room/stderr" </dev/null
    compare "the status of $*" 0 $?
    compare "standard error of $*" '' "$(cat -- "$room/stderr")"
}
for words in --help help -h 'record --help' 'gen --help'; do
    # shellcheck disable=SC2086  # the words are to be split
    expect_answer mcaprec $words
    compare "the front of $words" "$(printf '%s\n' "$usage" | sed 1d)" "$(head -n "$(printf '%s\n' "$usage" | sed 1d | wc -l)" "$room/stdout")"
done
expect_answer mcaprec --version
grep -q '^mcaprec 1' "$room/stdout" || say_wrong "the version is $(cat -- "$room/stdout")"

# The commands and their options, one a line.
options_of_usage() {
    printf '%s\n' "$usage" | sed -n 's/^  //p' | awk '{
        command = $1
        print command
        while (match($0, /--[a-z]+/)) { print command, substr($0, RSTART, RLENGTH); $0 = substr($0, RSTART + RLENGTH) }
    }' | sort
}
options_of_help() {
    awk '/^[a-z]+ [A-Z]/ { command = $1; print command } /^  --/ { print command, $1 }' "$root/launcher/help.txt" | sort
}
compare 'the options that --help tells' "$(options_of_usage)" "$(options_of_help)"
tr -d , <"$root/docs/RECORDING.md" >manual
for number in $(grep -o '[0-9]\{3,\}' "$root/launcher/help.txt" | sort -u); do
    grep -qw -- "$number" manual || say_wrong "docs/RECORDING.md doesn't have the number $number, which --help has"
done

# ---- installed under a prefix, and taken away

prefix=$room/prefix
"$root/install.sh" "$prefix" >/dev/null || say_wrong 'install.sh fails'
ln -s -- "$prefix/bin/mcaprec" "$room/a folder/installed"
expect 0 "$one_told" '' "$room/a folder/installed" info "$one"
expect 0 "$session_lines" '' "$prefix/bin/mcaprec" record --plain installed.mcap "$session"
expect 2 '' "$usage" "$prefix/bin/mcaprec" record
expect_answer "$prefix/bin/mcaprec" --help
compare 'the version of what is installed' "$(mcaprec --version)" "$("$prefix/bin/mcaprec" --version)"
# The man page is made of the usage, of what --help says and of the manual.
page=$prefix/share/man/man1/mcaprec.1
tr -d '\\' <"$page" >page
for number in $(grep -o '[0-9]\{3,\}' "$root/launcher/help.txt" | sort -u); do
    grep -qw -- "$number" page || say_wrong "the man page doesn't have the number $number"
done
compare 'the chapters of the man page' "$(sed -n 's/^##* //p' "$root/docs/RECORDING.md" | tr '[:lower:]' '[:upper:]')" \
    "$(sed -n 's/^\.SH //p' page | sed 1,3d)"
if command -v groff >/dev/null; then
    compare 'what groff says of the man page' '' "$(groff -man -Kutf8 -Tutf8 -ww -z "$page" 2>&1)"
fi
# shellcheck disable=SC2016  # the inner shell is to expand them
completed=$(bash -c '. "$1"; COMP_CWORD=2 COMP_WORDS=(mcaprec record --l); _mcaprec mcaprec --l record; echo "${COMPREPLY[*]}"
    COMP_CWORD=1; _mcaprec mcaprec re mcaprec; echo "${COMPREPLY[*]}"' bash "$prefix/share/bash-completion/completions/mcaprec")
compare 'what bash completes' '--lossless --limit
record recover' "$completed"
if command -v zsh >/dev/null; then zsh -n "$prefix/share/zsh/site-functions/_mcaprec" || say_wrong 'zsh refuses its completions'; fi
if command -v fish >/dev/null; then fish -n "$prefix/share/fish/vendor_completions.d/mcaprec.fish" || say_wrong 'fish refuses its completions'; fi
"$root/install.sh" --remove "$prefix" || say_wrong 'install.sh --remove fails'
expect_absent "$prefix"

# ---- the first build, by a stand-in for rt that proves nothing

# A checkout of few crates, of which the program stands on one.
mkdir -- "$room/checkout" "$room/checkout/crates" "$room/tools" "$room/builds"
cp -R -- "$root/mcaprec" "$root/launcher" "$root/.ci" "$root/HANDLES" "$room/checkout/"
for name in mcap_io mcap_crc command_words mcap_cli; do
    (cd -- "$root/crates" && tar --exclude=out -cf - "$name") | tar -xf - -C "$room/checkout/crates"
done
printf '# A layer.\nmcap_cli: mcap_io\n\n# A lower one: another crate.\nmcap_crc:\nmcap_io:\ncommand_words:\n' >"$room/checkout/crates.txt"
cat >"$room/tools/rt" <<'END'
#!/bin/sh
[ "$*" = ci ] && [ -d .git ] || exit 2
ls -d crates/*/must-fail crates/*/out crates/mcap_crc 2>/dev/null && exit 2
if [ -n "$CUT" ]; then
    echo 'rt: mcap_io proved'
    exec sleep 30
fi
sed 's/^\([a-z0-9_]*\).*/rt: \1 proved/' crates.txt
[ -z "$FAILS" ] || { echo 'rt: mcap_cli NOT PROVED' && exit 1; }
mkdir crates/mcap_cli/out && cp -- "$BUILT" crates/mcap_cli/out/mcap_cli
END
chmod +x "$room/tools/rt"
# Ends the shell that calls it.
building() {
    exec env PATH="$room/tools:$PATH" TMPDIR="$room/builds" BUILT="$root/crates/mcap_cli/out/mcap_cli" "$@"
}
building CUT=yes "$room/checkout/mcaprec" check "$one" >"$room/stdout" 2>&1 &
launcher=$!
for _ in 1 2 3 4 5 6 7 8 9 10 11 12 13 14 15 16 17 18 19 20; do
    ! grep -q ' proved ' "$room/stdout" || break
    sleep 0.5
done
kill "$launcher"
wait "$launcher"
compare 'the status of a build that is cut off' 143 $?
compare 'what it leaves' '' "$(ls -A "$room/builds")"
(building CUT= FAILS= "$room/checkout/mcaprec" check "$one") >"$room/stdout" 2>"$room/stderr" </dev/null
compare 'the status of a first run' 0 $?
compare 'what a first run prints' 'ok indexed messages=1 channels=1 schemas=0 chunks=1 attachments=0 metadata=0' "$(cat -- "$room/stdout")"
compare 'the last line of a first build' 'mcaprec: N:N proved mcap_io, crate 2 of 2' "$(sed -n '$s/: [0-9]*:[0-9]* /: N:N /p' "$room/stderr")"
compare 'what a build leaves' '' "$(ls -A "$room/builds")"
expect 0 "$one_told" '' "$room/checkout/mcaprec" info "$one"
echo '# Another text.' >>"$room/checkout/crates.txt"
(building CUT= FAILS=yes "$room/checkout/mcaprec" check "$one") >"$room/stdout" 2>"$room/stderr" </dev/null
compare 'the status where a crate is refused' 1 $?
compare 'what is said then' 'mcaprec: the program could not be proved and built' "$(tail -n 1 "$room/stderr")"
rm -rf -- "$room/checkout"

# ---- on a terminal

# Runs a command line in a terminal, and keeps what stands there, with carriage returns as new lines and without other codes.
on_terminal() {
    timeout 60 script -qec "$1" /dev/null </dev/null | tr '\r' '\n' | sed -e 's/\x1b\[K//g' -e '/^$/d' >"$room/terminal"
}
# That a command line prints that last line on a terminal, or that one but the last, which the shell's status is.
expect_hint() {
    printf '$ %s (on a terminal)\n' "$1"
    on_terminal "$1; echo status \$?"
    cat -- "$room/terminal"
    compare "the status of $1" "status $2" "$(tail -n 1 "$room/terminal")"
    compare "the last line of $1" "$3" "$(tail -n 2 "$room/terminal" | head -n 1)"
}
# Words that the program refuses, each of which the launcher can tell why.
refused_words() {
    cat <<'END'

recod
record
record a
record a a
record -o out f
record --limit 100M o f
record --limit=0 o f
record --chunk 67108865 o f
record --watchers 17 o f
record --watch 1: o f
record --watch 5:6:7 o f
record --watchers 2 o f o.watch2
record --plain --chunk 1 o f
record --plain --plain o f
record --plain=1 o f
record o f --limit
record o f -
cat a b
cat --start 1.5 f
cat --end 18446744073709551616 f
cat --topic a --topic b f
check --indexed a
recover a a
merge --chunk 0 o f
gen out
gen 1 65 3 o
gen 1 64 15626 o
END
}
refused_words | bash -c '
    root=$1 all=$2
    usage() { printf "%s\n" "$all"; }
    is_command() { usage | grep -q "^  $1 "; }
    complain() { printf "%s\n" "$1"; }
    . "$root/launcher/words.sh"
    while read -ra words; do
        "$root/crates/mcap_cli/out/mcap_cli" "${words[@]}" >/dev/null 2>&1 </dev/null
        [ $? -eq 2 ] || echo "WRONG: ${words[*]} is a command"
        why=$(name_wrong_word "${words[@]}")
        printf "%s: %s\n" "${words[*]}" "${why:-WRONG: nothing is told}"
    done' bash "$root" "$usage" >told
cat told
compare 'how many words are told to be wrong' "$(refused_words | wc -l)" "$(wc -l <told)"
! grep -q WRONG told || say_wrong 'not all wrong words are told'
if command -v script >/dev/null; then
    expect_hint 'mcaprec record --limit 100M o f' 2 "mcaprec: '100M' is no number: --limit takes digits alone, 1 to 1073741824 bytes; mcaprec --help says more"
    expect_hint 'mcaprec check missing.mcap' 3 "mcaprec: there is no file 'missing.mcap'"
    expect_hint 'mcaprec cat folder' 3 "mcaprec: 'folder' is a folder: name a file in it"
    expect_hint 'mcaprec record missing/out.mcap out.mcap' 3 "mcaprec: there is no folder 'missing'"
    expect_hint 'mcaprec record link.mcap named.mcap' 3 "mcaprec: 'link.mcap' and 'named.mcap' are one file, by a link"
    expect_hint 'mcaprec check one-cut.mcap' 1 "mcaprec: 'one-cut.mcap' has no end: it was cut off, or is still being written. mcaprec recover 'one-cut.mcap' NEW saves all that is whole"
    expect_hint 'mcaprec info text.csv' 1 "mcaprec: 'text.csv' doesn't begin as an MCAP file does: it is another kind of file, or its front is lost"
    expect_hint 'mcaprec cat --topic imu session-chunks.mcap' 0 "mcaprec: no message has the topic 'imu'; the topics are \"/imu\" \"/log\""
    expect_hint 'mcaprec cat --topic imu session-out.mcap' 0 "mcaprec: no message has the topic 'imu'; the topics are \"/imu\" \"/log\""
    expect_hint 'mcaprec cat --start 1031 session-chunks.mcap' 0 "mcaprec: no message was logged in these times: those of 'session-chunks.mcap' are from 1000 to 1030 nanoseconds"
    # A chunk that names a compression.
    { head -c 34 -- "$one" && printf '\006\065\0\0\0\0\0\0\0' && head -c 28 /dev/zero && printf '\004\0\0\0zstd\011\0\0\0\0\0\0\0compressed'; } >compressed.mcap
    expect_hint 'mcaprec cat compressed.mcap' 1 "mcaprec: compressed chunks aren't read: another tool has to decompress 'compressed.mcap' first, as mcap decompress of the mcap command line does"
    expect_hint 'MCAPREC_QUIET=1 mcaprec check missing.mcap' 3 'mcaprec: "missing.mcap": fault'
    # Words and names that would run a command, or steer the terminal.
    expect_hint 'mcaprec "$(printf "a//;e touch ran\n#")"' 2 "mcaprec: \$'a//;e touch ran\\n#' is no command; these are: record info check cat recover merge gen filter sort play"
    expect_hint 'mcaprec check "$(printf "\$(touch ran)\033[31m")"' 3 "mcaprec: there is no file \$'\$(touch ran)\\E[31m'"
    expect_hint 'mcaprec check "$(printf "%s" "--\033[31m")"' 2 "mcaprec: '--\\033[31m' is no option of check, which has none; mcaprec --help says more"
    ln -s "$(printf 'no\033[31m')" nowhere.mcap
    expect_hint 'mcaprec check nowhere.mcap' 3 "mcaprec: 'nowhere.mcap' is a link to \$'no\\E[31m', which isn't there"
    head -c 100 -- "$one" >./-cut.mcap
    expect_hint 'mcaprec check -- -cut.mcap' 1 "mcaprec: '-cut.mcap' has no end: it was cut off, or is still being written. mcaprec recover './-cut.mcap' NEW saves all that is whole"
    expect_absent ran
    on_terminal 'mcaprec check "$(printf "a\302\233b\177")"'
    compare 'a complaint of a name that steers a terminal' 'mcaprec: "a?b?": fault' "$(head -n 1 "$room/terminal")"

    # How far it is: of a feed that stands still in the midst.
    rm -f slow.mcap
    { sleep 2 && { head -c 292 -- "$session" && sleep 2 && tail -c +293 -- "$session"; } >pipe; } &
    expect_hint 'mcaprec record --plain slow.mcap pipe' 0 'file records=8 blocks=0 bytes=411 closed'
    wait
    expect_records slow.mcap "$imu_first$log$log_1$imu_2$imu_3$log_2"
    grep -q "^mcaprec: record: waiting until another program opens the pipe 'pipe', 0:0" "$room/terminal" || say_wrong 'it is not said that a pipe is waited for'
    grep -q '^mcaprec: record: [0-9]* kB read, 0 kB written, 0:0' "$room/terminal" || say_wrong 'it is not said how far a recording is'
    { sleep 2 && cat -- "$session"; } >pipe &
    expect_hint 'MCAPREC_QUIET=1 mcaprec record --plain slow.mcap pipe' 0 'file records=8 blocks=0 bytes=411 closed'
    wait
    compare 'what stands on a terminal where nothing is wanted' 3 "$(($(wc -l <"$room/terminal")))"
else
    skip 'what stands on a terminal, since there is no script'
fi

# ---- a limit of the system on sizes

filter=$either
# shellcheck disable=SC2016  # the inner shell is to expand them
expect 3 "feed N accepted=N refused=N passed=N end
$stopped" 'mcaprec: "limited.mcap": fault' sh -c 'ulimit -f 128; mcaprec record --plain "$1" "$2"' sh limited.mcap many.mcap
filter='cat'

# ---- files and folders that may not be read or written: root may do all, so another user runs it

as_another() {
    if [ "$(id -u)" -eq 0 ]; then
        setpriv --reuid=65534 --regid=65534 --clear-groups "$@"
    else
        "$@"
    fi
}

chmod 755 -- "$room"
mkdir -m 777 -- "$room/shared"
cd -- "$room/shared" || exit 1
cp -- "$sample" feed.mcap
printf 'before' >locked.mcap
if as_another "$root/mcaprec" >/dev/null 2>&1 </dev/null; [ $? -eq 2 ]; then
    chmod 000 locked.mcap
    expect 3 '' 'mcaprec: "locked.mcap": fault' as_another mcaprec record --plain locked.mcap feed.mcap
    expect 3 '' 'mcaprec: "locked.mcap": fault' as_another mcaprec record --plain unmade.mcap locked.mcap
    chmod 600 locked.mcap
    compare locked.mcap before "$(cat locked.mcap)"
    expect_absent unmade.mcap

    mkdir read-only
    cp -- "$session" read-only/feed.mcap
    chmod 555 read-only
    expect 0 "$session_lines" '' as_another mcaprec record --plain from-folder.mcap read-only/feed.mcap
    expect_records from-folder.mcap "$imu_first$log$log_1$imu_2$imu_3$log_2"
    expect 3 '' 'mcaprec: "read-only/new.mcap": fault' as_another mcaprec record --plain read-only/new.mcap feed.mcap
    expect_absent read-only/new.mcap
    chmod 755 read-only
else
    skip 'files and folders that may not be read or written, since no other user can run the program here'
fi

if [ "$wrong" -ne 0 ]; then
    printf '%s wrong\n' "$wrong"
    exit 1
fi
echo 'all as wanted'
