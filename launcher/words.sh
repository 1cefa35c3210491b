# shellcheck shell=bash disable=SC2154  # sourced by the launcher, which sets root, usage and complain
# Reads words as the program does, from its usage: what they name, and which of them is no word of a command, and why.

# The least and the greatest number that an option takes, and what it counts.
declare -A range_of=(
    [--limit]='1 1073741824 bytes'
    [--chunk]='1 67108864 bytes'
    [--watchers]='0 16 watchers'
    [--start]='0 18446744073709551615 nanoseconds'
    [--end]='0 18446744073709551615 nanoseconds'
    [SEED]='0 18446744073709551615 seed'
    [FEEDS]='1 64 feeds'
    [MESSAGES]='0 1000000 messages'
)

# The options that are given, with their values.
declare -A option=()

# Whether the digits are a number from the second to the third. Numbers of 20 digits pass what the shell counts to.
is_between() {
    local digits=$1
    [[ $digits =~ ^[0-9]{1,20}$ ]] || return 1
    printf -v digits '%020d' 0
    digits=${digits:${#1}}$1
    local least greatest
    printf -v least '%020d' "$2"
    greatest=00000000000000000000$3 greatest=${greatest: -20}
    [[ ! $digits < $least && ! $digits > $greatest ]]
}

# What is wrong with a number, if anything is.
refuse_number() {
    local least greatest what
    read -r least greatest what <<<"${range_of[$1]}"
    is_between "$2" "$least" "$greatest" && return
    if [[ $2 =~ ^[0-9]+$ ]]; then
        wrong="$2 is out of range: $1 takes $least to $greatest $what"
    else
        wrong="${2@Q} is no number: $1 takes digits alone, $least to $greatest $what"
    fi
}

# Sets the flags and the options with a value that the usage has for a command, each between spaces.
read_usage() {
    local name word words
    flags=' ' valued=' '
    while read -r name words; do
        if [ "$name" = "$1" ]; then break; fi
        words=''
    done < <(usage | sed -n 's/^  //p')
    read -ra words <<<"$words"
    for word in "${words[@]}"; do
        case $word in
            '[--'*']') word=${word#[} flags+="${word%]} " ;;
            '[--'*) valued+="${word#[} " ;;
        esac
    done
}

# Takes an option with its value.
take_option() {
    [ -z "${option[$1]-}" ] || wrong=${wrong:-"$1 stands twice"}
    option[$1]=$2
    [ "$2" != - ] || wrong=${wrong:-"'-' is no value of $1"}
    [ -z "${range_of[$1]-}" ] || [ -n "$wrong" ] || refuse_number "$1" "$2"
    case $1 in
        --watch) refuse_times "$2" ;;
        --profile) [ "$(printf '%s' "$2" | wc -c)" -le 65535 ] || wrong=${wrong:-'the profile has more than 65535 bytes'} ;;
    esac
}

# START:END of --watch.
refuse_times() {
    local last=18446744073709551615
    if ! [[ $1 =~ ^[0-9]+:[0-9]+$ ]]; then
        wrong=${wrong:-"${1@Q} isn't START:END: --watch takes two times in nanoseconds with one colon between them"}
    elif ! is_between "${1%:*}" 0 $last || ! is_between "${1#*:}" 0 $last; then
        wrong=${wrong:-"${1@Q} is out of range: --watch takes times from 0 to $last nanoseconds"}
    fi
}

# Why a word that begins with a dash isn't an option of the command.
refuse_option() {
    local all=${flags% }$valued
    all=${all# } all=${all% }
    case $1 in
        -) wrong="'-' is no name: standard input is /dev/stdin" ;;
        --*) wrong="${1@Q} is no option of $command"
            [ -z "${all// /}" ] && wrong+=', which has none' || wrong+="; it has: $all" ;;
        *) wrong="${1@Q} is no option: each is a whole word behind two dashes; a name that begins with a dash stands behind --" ;;
    esac
}

# Whether that is one of the options, each of which is between spaces.
is_among() {
    [[ $1 != *' '* && $2 = *" $1 "* ]]
}

# Reads the words behind a command: sets `option`, `places`, where among all words each of these is, and `wrong` where a word
# can't stand there.
read_words() {
    local word name many=$#
    command=${1-} wrong='' places=() place_at=() option=()
    [ $# -gt 0 ] && shift
    read_usage "$command"
    while [ $# -gt 0 ]; do
        word=$1 name=${1%%=*}
        shift
        if [ "$word" = -- ]; then
            while [ $# -gt 0 ]; do
                places+=("$1") place_at+=($((many - $#)))
                shift
            done
        elif is_among "$word" "$flags"; then
            take_option "$word" yes
        elif is_among "$name" "$valued" && [[ $word = *=* ]]; then
            take_option "$name" "${word#*=}"
        elif is_among "$word" "$valued"; then
            if [ $# -eq 0 ] || [ "${1#-}" != "$1" ]; then
                wrong=${wrong:-"$word wants a value behind it"}
            else
                take_option "$word" "$1"
                shift
            fi
        elif is_among "$name" "$flags"; then
            wrong=${wrong:-"$name takes no value"}
        elif [ "${word#-}" != "$word" ]; then
            [ -n "$wrong" ] || refuse_option "$word"
        else
            places+=("$word") place_at+=($((many - $# - 1)))
        fi
    done
}

# Which names aren't there, or are too many.
refuse_count() {
    local many=${#places[@]}
    case $command in
        info | check | cat) [ "$many" -eq 1 ] || wrong='takes one FILE' ;;
        recover | filter | sort) [ "$many" -eq 2 ] || wrong='takes IN and OUT' ;;
        play) [ "$many" -eq 2 ] || wrong='takes FILE and SCRIPT' ;;
        record) [ "$many" -ge 2 ] && [ "$many" -le 65 ] || wrong='takes OUT and 1 to 64 FEEDs' ;;
        merge) [ "$many" -ge 2 ] && [ "$many" -le 65 ] || wrong='takes OUT and 1 to 64 INs' ;;
        gen) [ "$many" -eq 4 ] || wrong='takes SEED FEEDS MESSAGES OUT' ;;
    esac
    [ -z "$wrong" ] || wrong="$command $wrong; words given for these: $many"
}

# What is wrong with the names and numbers that stand beside one another.
refuse_places() {
    local place
    for place in "${places[@]}"; do
        case $place in
            '') wrong='a name is empty' ;;
            -) wrong="'-' is no name: standard input is /dev/stdin" ;;
        esac
    done
    [ -z "$wrong" ] || return
    case $command in
        gen)
            refuse_number SEED "${places[0]}"
            [ -n "$wrong" ] || refuse_number FEEDS "${places[1]}"
            [ -n "$wrong" ] || refuse_number MESSAGES "${places[2]}"
            [ -n "$wrong" ] || [ $((10#${places[1]} * 10#${places[2]})) -le 1000000 ] || wrong='FEEDS times MESSAGES is more than 1000000'
            ;;
        record | merge | recover | filter | sort) refuse_same_names "${places[@]}" ;;
    esac
}

# A name is the output's and an input's.
refuse_same_names() {
    local first=$1 place number
    shift
    for place in "$@"; do
        [ "$place" != "$first" ] || wrong="${place@Q} stands for the output and for an input"
        number=${place#"$first.watch"}
        if [ "$command" = record ] && [ "$number" != "$place" ] && [ "${number#0}" = "$number" ] && is_between "$number" 1 "$(watchers)"; then
            wrong="${place@Q} is the name of a watcher's file, and of a feed"
        fi
    done
}

# How many watchers a recording has.
watchers() {
    local usual=${option[--watch]+1}
    printf '%s\n' "${option[--watchers]-${usual:-0}}"
}

# Which options exclude one another.
refuse_together() {
    local name
    [ -n "${option[--plain]-}" ] || return
    for name in --chunk --watch --watchers; do
        [ -z "${option[$name]+x}" ] || wrong="--plain and $name exclude each other"
    done
}

# Whether the words are texts.
refuse_bytes() {
    printf '%s\n' "$@" | iconv -f UTF-8 -t UTF-8 >/dev/null 2>&1
    [ $? -ne 1 ] || wrong='a word is no UTF-8 text'
}

# Says which word is wrong, and why, where that can be told.
name_wrong_word() {
    local commands
    commands=$(usage | sed -n 's/^  \([a-z]*\).*/\1/p' | tr '\n' ' ')
    if [ $# -eq 0 ]; then
        wrong="no command is named: mcaprec --help says what each does"
    elif ! is_command "$1"; then
        wrong="${1@Q} is no command; these are: ${commands% }"
    else
        read_words "$@"
        [ -n "$wrong" ] || refuse_together
        [ -n "$wrong" ] || refuse_count
        [ -n "$wrong" ] || refuse_places
        [ -n "$wrong" ] || refuse_bytes "$@"
        [ -z "$wrong" ] || wrong+='; mcaprec --help says more'
    fi
    [ -z "$wrong" ] || complain "$wrong"
}
