# shellcheck shell=bash disable=SC2154  # sourced by run.sh, whose attend sets command, option, places, report and complaints
# Says on the terminal, after what the program complained of, why that is and what can be done.

# The text of a JSON string, in `text`.
read_text() {
    text=${1#\"}
    text=${text%\"}
    [[ $text != *\\* ]] || printf -v text '%b' "${text//\\\"/\"}"
}

# A name as a word of a command line, in `word`: it isn't read as an option.
make_word() {
    local name=$1
    [[ $name != -* ]] || name=./$name
    word=${name@Q}
}

# Whether the file ends with the magic.
has_back() {
    [ "$(tail -c 8 -- "$1" 2>/dev/null | od -An -tx1 | tr -d ' \n')" = 894d434150300d0a ]
}

# Whether it ends with a Data End, as a feed does, whose CRC may have any value.
has_data_end() {
    [ "$(tail -c 13 -- "$1" 2>/dev/null | head -c 9 | od -An -tx1 | tr -d ' \n')" = 0f0400000000000000 ]
}

# Whether the name is that of a file that the command writes.
is_output() {
    [ "$1" = "${output-}" ] || [ "${1%.watch*}" = "${output-}" ]
}

# Why a folder's file can't be made, if that can be told.
refuse_folder() {
    local folder
    folder=$(dirname -- "$1")
    if [ ! -d "$folder" ]; then
        hint="there is no folder ${folder@Q}"
    elif [ ! -w "$folder" ]; then
        hint="no file can be made in ${folder@Q}: its permissions, or those of its disk, forbid it"
    fi
}

# Whether another file of the command is this one, by another name.
is_same_file() {
    local other
    for other in "${inputs[@]}" "$output"; do
        if [ "$other" != "$1" ] && [ "$other" -ef "$1" ]; then
            hint="${1@Q} and ${other@Q} are one file, by a link"
            return 0
        fi
    done
    return 1
}

# How many KiB are free where the file lies or would lie.
free_at() {
    local at=$1
    [ -e "$at" ] || at=$(dirname -- "$at")
    stat -f -c '%a %S' -- "$at" 2>/dev/null | awk '{ print int($1 * $2 / 1024) }'
}

# Why an output failed.
explain_output() {
    local free word
    if [ -d "$1" ]; then
        hint="${1@Q} is a folder: name a file in it"
    elif [ ! -e "$1" ]; then
        refuse_folder "$1"
    elif [ ! -w "$1" ]; then
        hint="${1@Q} may not be written: its permissions, or those of its disk, forbid it"
    elif is_same_file "$1"; then
        :
    elif [ -p "$1" ]; then
        hint="the program that read the pipe ${1@Q} has ended"
        [[ -z ${option[--watch]-}${option[--watchers]-} ]] || hint="watchers read OUT back, and ${1@Q} is a pipe: leave out --watch and --watchers"
    else
        free=$(free_at "$1")
        if [ "$1" -ef /dev/full ]; then
            hint="${1@Q} is a device that takes nothing"
        elif [ -n "$free" ] && [ "$free" -lt 1024 ]; then
            hint="the disk of ${1@Q} is full: $free KiB are free"
        elif [ "$(ulimit -f)" != unlimited ]; then
            hint="${1@Q} may have met the limit on sizes that ulimit -f sets: $(ulimit -f) KiB"
        fi
    fi
    if [ -n "$hint" ] && [[ $report = *' stopped '* ]] && [ -f "$1" ] && [ -s "$1" ] && [ "$1" = "$output" ]; then
        make_word "$1"
        hint+=". mcaprec recover $word NEW saves what it had written"
    fi
}

# Why an input failed.
explain_input() {
    local folder to
    if [ -d "$1" ]; then
        hint="${1@Q} is a folder: name a file in it"
    elif [ -L "$1" ] && [ ! -e "$1" ]; then
        to=$(readlink -- "$1")
        hint="${1@Q} is a link to ${to@Q}, which isn't there"
    elif [ ! -e "$1" ]; then
        hint="there is no file ${1@Q}"
        folder=$(dirname -- "$1")
        [ -d "$folder" ] || hint="there is no folder ${folder@Q}"
    elif [ ! -r "$1" ]; then
        hint="${1@Q} may not be read: its permissions forbid it"
    elif is_same_file "$1"; then
        :
    elif [ ! -f "$1" ] && [[ $command != @(record|recover|filter|play) ]]; then
        hint="${1@Q} is no regular file but a pipe or a device, which has no length: cat without --indexed, record, recover and filter read it"
    fi
}

# Why bytes are no MCAP file, or not all of one.
explain_bytes() {
    local file=$1 place=$2 word
    make_word "$file"
    if [ ! -f "$file" ]; then
        hint="who writes a pipe ended before a Data End, or wrote what breaks a rule there"
        [ "$command" != record ] || hint+=': all messages before that are recorded'
    elif [ ! -s "$file" ]; then
        hint="${file@Q} is empty"
    elif ! has_front "$file"; then
        hint="${file@Q} doesn't begin as an MCAP file does: it is another kind of file, or its front is lost"
    elif [ "$command" = record ]; then
        hint="${file@Q} was cut off there, is still being written, or breaks a rule of docs/FORMAT.md: what is before $place was read"
    elif has_data_end "$file"; then
        hint="${file@Q} ends with its Data End, as a feed does: mcaprec recover $word NEW makes a file of it"
    elif ! has_back "$file"; then
        hint="${file@Q} has no end: it was cut off, or is still being written. mcaprec recover $word NEW saves all that is whole"
    else
        hint="what stands at $place in ${file@Q} breaks a rule of docs/FORMAT.md. mcaprec recover $word NEW saves what stands before it"
    fi
}

# Where a limit is met.
explain_limit() {
    if [ -n "$2" ]; then
        hint="the record at $2 of ${1@Q} has more than 268435456 bytes, or ends behind 1099511627776: it is damaged, or too large to be read"
    else
        hint="a message has more than 33554432 bytes, a channel's declaration more than 1048576, there are more than 65535 channels or schemas, or ${1@Q} would pass 1099511627776 bytes"
    fi
}

explain_memory() {
    case $command in
        record) hint="a recording reserves two buffers of 32 MiB and --limit bytes each (${option[--limit]-104857600} here): a smaller --limit wants less; each watcher holds all that it replays" ;;
        cat | play) hint='all messages that are printed are held first: --start, --end and --topic choose fewer' ;;
        *) return ;;
    esac
}

# What to do after a complaint about a name, in `hint`.
explain_name() {
    local name=$1 complaint=$2 place word
    place=${complaint##* at }
    make_word "$name"
    case $complaint in
        fault) if is_output "$name"; then explain_output "$name"; else explain_input "$name"; fi ;;
        'compressed '*) hint="compressed chunks aren't read: another tool has to decompress ${name@Q} first, as mcap decompress of the mcap command line does" ;;
        'grammar at '* | 'flaw V'*) explain_bytes "$name" "$place" ;;
        'limit at '*) explain_limit "$name" "$place" ;;
        limit) explain_limit "$name" '' ;;
        'not indexed: '*) hint="${name@Q} has no index: cat without --indexed reads it, and mcaprec merge NEW $word writes it with one" ;;
    esac
}

# What to do after one line of the program, in `hint`. A name is a JSON string, which ends with the first quote that stands there
# as itself: what is in it, or in a compression's name, isn't taken for a complaint.
explain() {
    local line=$1 text place_at complaint='^mcaprec: ("([^"\\]|\\.)*"): (.*)$'
    place_at=${line##* at=}
    if [[ $line =~ $complaint ]]; then
        read_text "${BASH_REMATCH[1]}"
        explain_name "$text" "${BASH_REMATCH[3]}"
        return
    fi
    case $line in
        'mcaprec: no memory') explain_memory ;;
        'mcaprec: output: fault') hint='standard output takes no more: its disk is full, or the program that read it has ended' ;;
        'flaw V'*) explain_bytes "${places[0]}" "${line##* at }" ;;
        'recovered '*' grammar' | 'recovered '*' limit') hint="what stands from ${place_at%% *} on isn't in ${output@Q}: the record there breaks a rule of docs/FORMAT.md or is too long" ;;
        'recovered '*' compressed') hint="what stands from ${place_at%% *} on isn't in ${output@Q}: its chunks are compressed, and another tool has to decompress ${places[0]@Q} first, as mcap decompress of the mcap command line does" ;;
    esac
}

# The topics of the file, a JSON string a line: by its summary, or else, where it isn't large, by its messages.
topics_of() {
    local told
    if told=$("$program" info "$1" 2>/dev/null </dev/null); then
        grep -o '"topic":"\([^"\\]\|\\.\)*"' <<<"$told" | sed 's/^"topic"://'
    elif [ -f "$1" ] && [ "$(stat -L -c %s -- "$1")" -lt 100000000 ]; then
        "$program" cat "$1" 2>/dev/null </dev/null | sed 's/^[0-9]* [0-9]* [0-9]* [0-9]* \(".*"\) [0-9a-f-]*$/\1/' | sort -u
    fi
}

# Whether no message has the topic that was asked for, and which there are.
explain_topic() {
    local topics topic text
    topics=$(topics_of "${places[0]}")
    [ -n "$topics" ] || return
    while IFS= read -r topic; do
        read_text "$topic"
        [ "$text" != "${option[--topic]}" ] || return
    done <<<"$topics"
    hint="no message has the topic ${option[--topic]@Q}; the topics are $(head -n 20 <<<"$topics" | cut -c 1-100 | paste -sd ' ' -)"
    [ "$(wc -l <<<"$topics")" -le 20 ] || hint+='and more, which mcaprec info tells'
}

# Whether no message was logged in the times that were asked for, and when they were.
explain_range() {
    local told first last start=${option[--start]-0} end=${option[--end]-}
    told=$("$program" info "${places[0]}" 2>/dev/null </dev/null) || return
    [[ $told =~ \"end\":([0-9]+),\"library\" ]] && last=${BASH_REMATCH[1]} || return
    [[ $told =~ \"start\":([0-9]+)\}$ ]] && first=${BASH_REMATCH[1]} || return
    if [[ $told = *'"messages":0,'* ]]; then
        hint="${places[0]@Q} has no messages"
    elif ! is_between "$start" 0 "$last" || { [ -n "$end" ] && is_between "$end" 0 "$first"; }; then
        hint="no message was logged in these times: those of ${places[0]@Q} are from $first to $last nanoseconds"
    elif [ -n "$end" ] && is_between "$end" 0 "$start"; then
        hint="no time is from $start on and before $end"
    fi
}

# Says it once.
say_hint() {
    [ -n "$hint" ] && [[ $said != *$'\n'"$hint"$'\n'* ]] || return
    said+=$hint$'\n'
    complain "$hint"
}

# Says what is to be done after the command, of at most eight lines.
say_next() {
    local line lines said=$'\n' hint inputs output word
    set_names
    if [ "$status" -eq 2 ]; then
        name_wrong_word "$@"
        return
    fi
    mapfile -t -n 8 lines <<<"$complaints$report"
    for line in "${lines[@]}"; do
        hint=''
        explain "$line"
        say_hint
    done
    hint=''
    if [[ $command = @(cat|filter|play) ]] && [ "$status" -eq 0 ]; then
        [ -z "${option[--topic]+x}" ] || explain_topic
        [ -n "$hint" ] || [ -z "${option[--start]+x}${option[--end]+x}" ] || explain_range
    elif [ "$command" = record ] && [ "$status" -gt 128 ] && [ -s "$output" ]; then
        make_word "$output"
        hint="the recording was cut off: mcaprec recover $word NEW saves what it had written"
    fi
    say_hint
}
