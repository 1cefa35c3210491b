# shellcheck shell=bash disable=SC2154,SC1091  # sourced by the launcher, which sets root and program
# Runs the program beside the launcher, which meanwhile says how far it is, and afterwards what was lost and what to do next.
# What the program prints goes out as it is, and its status is answered.
. "$root/launcher/words.sh"
. "$root/launcher/relay.sh"
. "$root/launcher/asking.sh"

# Makes a pipe. Its ends for reading and for writing are kept in the variables of these names.
make_pipe() {
    local both
    { exec {both}<> <(:); } 2>/dev/null || return
    eval "exec {$1}</proc/self/fd/$both {$2}>/proc/self/fd/$both"
    exec {both}>&-
}

# Whether the report goes through the launcher: of a recording, to see what was refused, and where it would come into the line
# that says how far the work is. A lossless recording refuses nothing as full.
is_relayed() {
    case $command in
        cat) return 1 ;;
        record) [ -z "${option[--lossless]-}" ] || [ -t 1 ] ;;
        *) [ -t 1 ] ;;
    esac
}

# Starts the program. It is in the launcher's own group of processes, and an interrupt from the terminal doesn't end it.
start() {
    (
        [ -z "$report_in" ] || exec >&"$report_out" {report_in}<&- {report_out}>&-
        [ -z "$complaints_in" ] || exec 2>&"$complaints_out" {complaints_in}<&- {complaints_out}>&-
        exec "$program" "$@"
    ) <&0 &
    running=$!
    [ -z "$report_in" ] || exec {report_out}>&-
    [ -z "$complaints_in" ] || exec {complaints_out}>&-
}

# The first interrupt ends the pipes of a recording, and the file is closed with all that they gave: first by those who write
# them, who are interrupted too, then by the launcher. Files are read to their end. A second one, or a request to end, ends the
# recording at once.
interrupt() {
    interrupts=$((interrupts + 1))
    if [ "$command" != record ] || [ "$interrupts" -gt 1 ]; then
        end_by TERM INT
        return
    fi
    relays_end=$((SECONDS + patience + 1))
    if is_watched; then
        say_over "the recording ends with what its pipes give within $patience seconds, and once its files are read. A second interrupt ends it at once, without what isn't in a closed chunk yet"
    fi
}

# Ends the program by a signal, and the launcher by another one as soon as it has ended.
end_by() {
    [ -n "$running" ] || return 0
    [ "$command" = record ] || signal=$2
    kill -"$1" "$running"
}

# Until the program runs, an interrupt is ignored: so the program, which the terminal interrupts too, ignores it from its start.
defer_signals() {
    interrupts=0 signal=''
    trap '' INT QUIT
}

heed_signals() {
    trap interrupt INT
    trap 'end_by TERM TERM' TERM
    trap 'end_by TERM HUP' HUP
    trap 'end_by TERM QUIT' QUIT
}

# Takes what the program prints on the file descriptor, until it has ended, into the variable of this name.
take_all() {
    local line status
    while :; do
        IFS= read -r -t 0.5 -u "$1" line
        status=$?
        printf -v "$2" '%s%s' "${!2}" "$line"
        case $status in
            0) printf -v "$2" '%s\n' "${!2}" ;;
            1) return ;;
            *)
                [ -z "$report_in" ] || drain_report
                end_late_relays
                ! is_watched || tick
                ;;
        esac
    done
}

# Takes what stands in the pipe of the report, so that the program doesn't wait for room there.
drain_report() {
    local line status
    while read -r -t 0 -u "$report_in"; do
        IFS= read -r -t 1 -u "$report_in" line
        status=$?
        report+=$line
        # The line goes on, or has ended the report.
        [ "$status" -eq 0 ] || return 0
        report+=$'\n'
    done
}

# Waits until the program has ended, and keeps its status.
reap() {
    while :; do
        wait "$running" 2>/dev/null
        status=$?
        # A signal ends the waiting, and the program goes on.
        [ "$status" -gt 128 ] && kill -0 "$running" 2>/dev/null || break
    done
    # Where it ended as the signal came, that isn't its status yet.
    wait "$running" 2>/dev/null
    local ended=$?
    [ "$ended" -eq 127 ] || status=$ended
    # Another program may get its number.
    running=''
}

# Prints the report. Where standard output fails that is told as the program tells it: before a want of memory, and with
# status 3 unless memory lacked.
give_report() {
    [ -z "$report" ] || printf '%s' "$report" 2>/dev/null && return
    local memory=$'mcaprec: no memory\n'
    if [ "$status" -eq 5 ]; then
        complaints=${complaints%"$memory"}$'mcaprec: output: fault\n'$memory
    else
        complaints+=$'mcaprec: output: fault\n' status=3
    fi
}

# Prints the complaints. A name in one may have characters that steer a terminal.
give_complaints() {
    local line lines plain
    if ! is_watched; then
        printf '%s' "$complaints" >&2 2>/dev/null
    elif [ -n "$complaints" ]; then
        mapfile -t lines <<<"${complaints%$'\n'}"
        for line in "${lines[@]}"; do
            make_plain "$line"
            printf '%s\n' "$plain" >&2 2>/dev/null
        done
    fi
}

# Whether all that the report says to be refused was so for a full buffer: with status 0 or 1 nothing else refuses a message,
# and with 3 only a limit does, which is told of OUT.
is_full_alone() {
    case $status in 0 | 1 | 3) ;; *) return 1 ;; esac
    [[ $report = *' closed'$'\n' && $complaints != *': limit'$'\n'* ]]
}

# Says that messages were lost, and how they wouldn't be.
say_loss() {
    local refused feed waits='the feeds wait' limit=${option[--limit]-104857600} more=''
    is_full_alone || return
    refused=$(awk '/^feed / { sub(/.*refused=/, ""); sum += $1 } END { print sum + 0 }' <<<"$report")
    [ "$refused" -gt 0 ] || return
    for feed in "${places[@]:1}"; do
        [ -f "$feed" ] || waits='the feeds, and who writes their pipes, wait'
    done
    is_between "$limit" 1073741824 1073741824 || more="; a --limit above $limit bytes (at most 1073741824) holds more"
    complain "$refused messages were lost, since the buffer was full when they came: with --lossless $waits for room$more"
}

# Ends as the program did.
leave() {
    trap - INT TERM HUP QUIT
    if [ -n "$signal" ] && [ "$status" -gt 128 ]; then
        ulimit -c 0
        kill -"$signal" $$
    fi
    exit "$status"
}

attend() {
    local report='' complaints='' report_in='' report_out complaints_in='' complaints_out
    local running status interrupts signal command wrong places place_at flags valued words
    declare -A option
    read_words "$@"
    if is_watched; then
        . "$root/launcher/progress.sh"
        ask_before_emptying "$@" || exit 1
    fi
    defer_signals
    relay_pipes "$@"
    is_relayed && make_pipe report_in report_out
    if [ -n "$report_in$relay_room" ] || is_watched; then make_pipe complaints_in complaints_out; fi
    start "${words[@]}"
    heed_signals
    [ -z "$complaints_in" ] || take_all "$complaints_in" complaints
    [ -z "$report_in" ] || take_all "$report_in" report
    reap
    leave_relays
    ! is_watched || clear_line
    trap '' PIPE
    name_feeds
    [ -z "$report_in" ] || give_report
    give_complaints
    [ "$command" != record ] || say_loss
    if is_watched; then
        . "$root/launcher/hints.sh"
        say_next "$@"
    fi
    leave
}
