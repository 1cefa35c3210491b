# shellcheck shell=bash disable=SC2154  # sourced by run.sh, whose attend sets running, command, places and report_in
# Says on the terminal how far long work is, by what the system tells of the program: what it has read, the place in the file
# that it writes, and which files are open.

began=$SECONDS
shown=''
total=unknown
width=''

# The files that the command reads, and the one that it writes.
set_names() {
    case $command in
        record | merge) inputs=("${places[@]:1}") output=${places[0]-} ;;
        recover | filter | sort) inputs=("${places[0]-}") output=${places[1]-} ;;
        play) inputs=("${places[@]}") ;;
        gen) inputs=() output=${places[3]-} ;;
        *) inputs=("${places[0]-}") output='' ;;
    esac
}

# How many bytes will be read, or nothing where a pipe is among the files. Merging and sorting read each file twice.
set_total() {
    local file size
    set_names
    total=0
    for file in "${inputs[@]}"; do
        if [ ! -f "$file" ]; then
            total=''
            return
        fi
        size=$(stat -L -c %s -- "$file") || size=0
        total=$((total + size))
    done
    [[ $command != @(merge|sort) ]] || total=$((2 * total))
}

# The name at which the program has this file open, to be written where that is asked for, in the variable `open_at`.
find_open() {
    local at key value
    for at in "/proc/$running/fd"/*; do
        [ "$at" -ef "$1" ] || continue
        open_at=${at##*/}
        [ -n "$2" ] || return 0
        while read -r key value; do
            if [ "$key" = flags: ] && [[ $value = *[12] ]]; then return 0; fi
        done <"/proc/$running/fdinfo/$open_at"
    done 2>/dev/null
    return 1
}

# The place in the file that is written, in `written`.
find_written() {
    local key value
    written=''
    if [ "$command" = cat ]; then
        open_at=1
    else
        [ -f "$output" ] && find_open "$output" written || return
    fi
    while read -r key value; do
        if [ "$key" = pos: ]; then written=$value; fi
    done 2>/dev/null <"/proc/$running/fdinfo/$open_at"
}

# What was read so far, in `got`.
find_read() {
    local key value
    got=''
    while read -r key value; do
        if [ "$key" = rchar: ]; then got=$value; fi
    done 2>/dev/null <"/proc/$running/io"
}

# The pipe that still waits for its other end, in `closed`. The files are opened in their order, and then the output.
find_closed_pipe() {
    local feed file open_at
    closed=''
    for feed in "${!inputs[@]}"; do
        file=${inputs[feed]}
        # Of a recording the first place is OUT's.
        if [ -p "$file" ] && ! find_open "${relay[$((feed + 1))]-$file}" ''; then
            closed=$file
            return
        fi
    done
    if [ -p "$output" ] && ! find_open "$output" ''; then closed=$output; fi
}

# A number of bytes, for people, in `size`.
tell_size() {
    if [ "$1" -lt 10000000 ]; then size="$(($1 / 1000)) kB"; else size="$(($1 / 1000000)) MB"; fi
}

# How many characters fit into a line of the terminal.
set_width() {
    local columns
    read -r _ columns < <(stty size <&2 2>/dev/null)
    [[ ${columns-} =~ ^[0-9]{1,4}$ ]] && [ "$columns" -gt 1 ] || columns=80
    width=$((columns < 80 ? columns - 1 : 79))
}

# How far the work is, as text, in `far`.
tell_far() {
    local got written open_at closed size
    far=''
    find_closed_pipe
    if [ -n "$closed" ]; then
        far="waiting until another program opens the pipe ${closed@Q}"
        return
    fi
    find_read
    find_written
    if [ "${total:-0}" -gt 0 ] && [ -n "$got" ]; then
        [ "$got" -le "$total" ] || got=$total
        far="$((100 * got / total)) %, "
    fi
    if [ -n "$got" ]; then
        tell_size "$got"
        far+="$size read"
    fi
    if [ -n "$written" ]; then
        tell_size "$written"
        far+="${far:+, }$size written"
    fi
}

# Whether the terminal can take a line away, and the line wouldn't come among what the program itself writes there.
is_shown() {
    [ "${TERM-dumb}" != dumb ] && { [ -n "$report_in" ] || [ -f /proc/self/fd/1 ]; }
}

# Says how far the work is, each second.
tick() {
    local far line plain took=$((SECONDS - began)) inputs output
    [ -z "$report_in" ] || drain_report
    [ "$took" -ge 1 ] && [ "$took" != "$shown" ] && is_shown || return 0
    [ "$total" != unknown ] || set_total
    [ -n "$width" ] || set_width
    set_names
    tell_far
    shown=$took
    printf -v line 'mcaprec: %s: %s%d:%02d' "$command" "${far:+$far, }" $((took / 60)) $((took % 60))
    make_plain "$line"
    printf '\r\033[K%s' "${plain:0:width}" >&2
}

# Takes the line away.
clear_line() {
    [ -z "$shown" ] || printf '\r\033[K' >&2
    shown=''
}

# Complains in the line's place.
say_over() {
    clear_line
    complain "$1"
}
