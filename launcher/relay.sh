# shellcheck shell=bash disable=SC2154  # sourced by run.sh, whose attend sets command, wrong, places and place_at
# Reads the pipes among a recording's feeds through programs of the launcher's own, which can be ended: so an interrupt ends a
# recording well though those who write the pipes go on.

# How many seconds those who write pipes have at least after an interrupt to end them themselves.
patience=2
# By the number of the feed: the pipe that the program reads in its place, and the process that writes it.
declare -A relay=() relaying=()
relay_room=''
relays_end=''

# Whether the program takes these words.
are_taken() {
    local wrong=$wrong
    [ -n "$wrong" ] || refuse_together
    [ -n "$wrong" ] || refuse_count
    [ -n "$wrong" ] || refuse_places
    [ -n "$wrong" ] || refuse_bytes "$@"
    [ -z "$wrong" ]
}

# Whether the feed is a pipe that can be relayed: one that is an output too is the program's to refuse, and so is one that can't
# be read. A complaint has the name as a JSON string, in which a control character would be another text.
is_pipe_alone() {
    local output=${places[0]} other
    [ -p "$1" ] && [ -r "$1" ] && [[ $1 != *[[:cntrl:]]* ]] || return 1
    for other in "$output" "$output".watch*; do
        [ ! "$1" -ef "$other" ] || return 1
    done
}

# Sets `words`: those that are given, with a pipe of the launcher's in place of each feed that is a pipe.
relay_pipes() {
    local feed
    words=("$@")
    [ "$command" = record ] || return 0
    for feed in "${!places[@]}"; do
        [ "$feed" -gt 0 ] && is_pipe_alone "${places[feed]}" || continue
        if [ -z "$relay_room" ]; then
            are_taken "$@" && relay_room=$(mktemp -d -- "${TMPDIR:-/tmp}/mcaprec-feeds-XXXXXX") || return 0
        fi
        mkfifo -m 600 -- "$relay_room/$feed" || continue
        relay[$feed]=$relay_room/$feed
        words[place_at[feed]]=${relay[$feed]}
        start_relay "$feed"
    done
}

# The pipe is opened before the program's, which so isn't read before the pipe has a writer. Where that fails the program reads
# nothing. Standard input is named, since a shell gives the null device to what it doesn't wait for.
start_relay() {
    ( { exec cat; } <"${places[$1]}" >"${relay[$1]}" || : >"${relay[$1]}" ) <&0 2>/dev/null &
    relaying[$1]=$!
}

# Whether a process of the launcher's goes on. The number of one that ended may be another's.
is_running() {
    local number
    for number in $(jobs -pr); do
        [ "$number" != "$1" ] || return 0
    done
    return 1
}

# Whether all that the process has read was written: it is no `cat` yet, or is in a call on its standard input, or can't be
# looked at.
has_passed_all() {
    local name place
    read -r name 2>/dev/null <"/proc/$1/comm" && [ "$name" = cat ] || return 0
    read -r _ place _ 2>/dev/null <"/proc/$1/syscall" || return 0
    [ "$place" = 0x0 ]
}

# Ends the feed. The program may still wait until another one opens its pipe.
end_relay() {
    kill -TERM "${relaying[$1]}" 2>/dev/null
    ( : >"${relay[$1]}" ) 2>/dev/null &
    relaying[$1]=$!
}

# Ends the feeds that go on, once those who write them have had their time. Each has a second, with all others, to hand over
# what it has read.
end_late_relays() {
    local feed tries late=()
    [ -n "$relays_end" ] && [ "$SECONDS" -ge "$relays_end" ] || return 0
    relays_end=''
    for feed in "${!relaying[@]}"; do
        if is_running "${relaying[$feed]}"; then late+=("$feed"); fi
    done
    for tries in {1..50}; do
        for feed in "${!late[@]}"; do
            if has_passed_all "${relaying[${late[feed]}]}" || [ "$tries" -eq 50 ]; then
                end_relay "${late[feed]}"
                unset "late[feed]"
            fi
        done
        [ "${#late[@]}" -gt 0 ] || return 0
        sleep 0.02
    done
}

# Complaints name the feeds as the user did.
name_feeds() {
    local feed name
    for feed in "${!relay[@]}"; do
        name=${places[feed]//\\/\\\\}
        complaints=${complaints//"mcaprec: \"${relay[$feed]}\":"/"mcaprec: \"${name//\"/\\\"}\":"}
    done
}

# The program has ended, so nobody reads what is relayed.
leave_relays() {
    local number
    [ -n "$relay_room" ] || return 0
    for number in "${relaying[@]}"; do
        if is_running "$number"; then kill -TERM "$number" 2>/dev/null; fi
    done
    rm -rf -- "$relay_room"
}
