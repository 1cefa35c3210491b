#!/bin/sh
# Writes the samples of this folder anew: empty.mcap, a feed without messages; session.mcap, a feed with five messages
# on two channels, one of which has a schema; one.mcap, a whole file with one message in one chunk, which
# docs/DEFINITIONS.md reads byte by byte; and another_writer.mcap, a whole file that uses what the format leaves to a writer.
set -eu
cd -- "$(dirname -- "$0")"
content=$(mktemp)
trap 'rm -f -- "$content"' EXIT

# A number in so many bytes, the lowest first.
number() {
    bytes=$1 rest=$2
    while [ "$bytes" -gt 0 ]; do
        # shellcheck disable=SC2059  # the format is the byte
        printf "\\$(printf '%03o' $((rest % 256)))"
        rest=$((rest / 256)) bytes=$((bytes - 1))
    done
}

# A text of ASCII, with its length before it.
text() {
    number 4 ${#1}
    printf '%s' "$1"
}

# A record of that opcode, whose content is read.
record() {
    cat >"$content"
    number 1 "$1"
    number 8 $(($(wc -c <"$content")))
    cat -- "$content"
}

magic() { printf '\211MCAP0\r\n'; }

# The library's name.
header() { { text '' && text "$1"; } | record 1; }

data_end() { number 4 0 | record 15; }

# Channel, sequence, log_time, publish_time and data.
message() { { number 2 "$1" && number 4 "$2" && number 8 "$3" && number 8 "$4" && printf '%s' "$5"; } | record 5; }

# The schema 3, and the channel 5 on it.
imu() {
    { number 2 3 && text Imu && text jsonschema && text '{"type":"object"}'; } | record 3
    { number 2 5 && number 2 3 && text /imu && text json && number 4 0; } | record 4
}

# Its metadata have 30 bytes, and their keys stand in no order.
log() {
    {
        number 2 2 && number 2 0 && text /log && text ''
        number 4 30 && text unit && text s && text frame && text base
    } | record 4
}

{ magic && header '' && data_end; } >empty.mcap

{
    magic && header sample && imu && log
    message 5 1 1000 990 '{"z":9.8}'
    message 2 1 1005 1005 start
    message 5 2 1010 1000 '{"z":9.7}'
    message 5 3 1020 1010 ''
    message 2 2 1030 1030 stop
    data_end
} >session.mcap

# The channel 1 and the message on it, 27 and 32 bytes.
channel() { { number 2 1 && number 2 0 && text /a && text '' && number 4 0; } | record 4; }
records() {
    channel
    { number 2 1 && number 4 1 && number 8 10 && number 8 9 && number 1 170; } | record 5
}

# Opcode, start and length of a group of the summary.
summary_offset() { { number 1 "$1" && number 8 "$2" && number 8 "$3"; } | record 14; }

# The CRCs are those that zlib's crc32 gives, of the records and of the summary up to the Footer's own.
{
    inner=$(mktemp)
    records >"$inner"
    magic && header 'mcaprec 1'
    {
        number 8 10 && number 8 10 && number 8 59 && number 4 $((0xd8bb91a8)) && text ''
        number 8 59 && cat -- "$inner" && rm -f -- "$inner"
    } | record 6
    { number 2 1 && number 4 16 && number 8 10 && number 8 27; } | record 7
    data_end
    channel
    {
        number 8 1 && number 2 0 && number 4 1 && number 4 0 && number 4 0 && number 4 1
        number 8 10 && number 8 10 && number 4 10 && number 2 1 && number 8 1
    } | record 11
    {
        number 8 10 && number 8 10 && number 8 34 && number 8 108 && number 4 10 && number 2 1 && number 8 142
        number 8 31 && text '' && number 8 59 && number 8 59
    } | record 8
    summary_offset 4 186 27 && summary_offset 11 213 65 && summary_offset 8 278 83
    { number 8 186 && number 8 361 && number 4 $((0xcc25c6ad)); } | record 2
    magic
} >one.mcap

# Each crc is 0. Bytes stand behind the fields of a channel, and a record of an unknown kind between two chunks. The indexes
# and their entries are in other orders than the messages, and the schema 9 stands in the summary alone.
imu_schema() { { number 2 1 && text imu && text json && text '{}'; } | record 3; }
pose_schema() { { number 2 2 && text x && text '' && text ''; } | record 3; }
imu_channel() {
    {
        number 2 1 && number 2 1 && text /imu && text json
        number 4 20 && text k && text v && text a && text b
    } | record 4
}
log_channel() { { number 2 2 && number 2 0 && text /log && text '' && number 4 0 && printf zz; } | record 4; }
none_channel() { { number 2 3 && number 2 2 && text /none && text '' && number 4 0; } | record 4; }
byte_message() { { number 2 "$1" && number 4 "$2" && number 8 "$3" && number 8 9 && number 1 "$4"; } | record 5; }

first_records() {
    imu_schema && imu_channel && byte_message 1 1 10 170 && log_channel
    message 2 1 12 9 '' && byte_message 1 2 11 187
}
second_records() { pose_schema && none_channel && message 2 2 20 9 q && message 1 3 5 9 w; }

# Least and greatest log_time, and the records, which are read.
plain_chunk() {
    inner=$(mktemp)
    cat >"$inner"
    size=$(($(wc -c <"$inner")))
    {
        number 8 "$1" && number 8 "$2" && number 8 $size && number 4 0 && text ''
        number 8 $size && cat -- "$inner"
    } | record 6
    rm -f -- "$inner"
}

# Times, the offset and the length of a chunk; channels and offsets of its message indexes, which are read, with their
# length here and that of them all; and the length of its records.
chunk_index() {
    {
        number 8 "$1" && number 8 "$2" && number 8 "$3" && number 8 "$4"
        number 4 "$5" && cat && number 8 "$6" && text '' && number 8 "$7" && number 8 "$7"
    } | record 8
}

{
    magic
    { text p && text l; } | record 1
    { number 8 5 && number 8 6 && text n && text m && number 8 4 && printf data && number 4 0; } | record 9
    first_records | plain_chunk 10 12
    { number 2 2 && number 4 16 && number 8 12 && number 8 148; } | record 7
    { number 2 1 && number 4 32 && number 8 11 && number 8 179 && number 8 10 && number 8 85; } | record 7
    number 1 1 | record 144
    { text md && number 4 10 && text x && text y; } | record 12
    second_records | plain_chunk 5 20
    { number 2 1 && number 4 16 && number 8 5 && number 8 86; } | record 7
    { number 2 2 && number 4 16 && number 8 20 && number 8 54; } | record 7
    none_channel | plain_chunk 0 0
    data_end
    imu_schema && pose_schema
    { number 2 9 && text only && text '' && text ''; } | record 3
    imu_channel && log_channel && none_channel
    {
        number 8 5 && number 2 2 && number 4 3 && number 4 1 && number 4 1 && number 4 3
        number 8 5 && number 8 20 && number 4 20 && number 2 1 && number 8 3 && number 2 2 && number 8 2
    } | record 11
    chunk_index 0 0 684 79 0 0 30 </dev/null
    { number 2 1 && number 8 622 && number 2 2 && number 8 653; } | chunk_index 5 20 455 167 20 62 118
    { number 2 2 && number 8 338 && number 2 1 && number 8 369; } | chunk_index 10 12 78 260 20 78 211
    { number 8 27 && number 8 51 && number 8 5 && number 8 6 && number 8 4 && text n && text m; } | record 10
    { number 8 426 && number 8 29 && text md; } | record 13
    summary_offset 3 776 83 && summary_offset 4 859 114 && summary_offset 11 973 75
    summary_offset 8 1048 259 && summary_offset 10 1307 59 && summary_offset 13 1366 31
    { number 8 776 && number 8 1397 && number 4 0; } | record 2
    magic
} >another_writer.mcap
