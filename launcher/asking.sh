# shellcheck shell=bash disable=SC2154,SC2034  # sourced by run.sh, whose attend sets command and places; progress.sh sets output
# Asks on the terminal before a recording is emptied.

# Whether the file begins with the magic.
has_front() {
    [ "$(head -c 8 -- "$1" 2>/dev/null | od -An -tx1 | tr -d ' \n')" = 894d434150300d0a ]
}

# The program would empty a recording that is there: whether it shall. Nothing is asked where it refuses the words, or a file
# before it empties anything.
ask_before_emptying() {
    local inputs output input answer plain
    [ -z "$force" ] && [ -t 0 ] || return 0
    set_names
    [ -n "$output" ] && [ -f "$output" ] && has_front "$output" && are_taken "$@" || return 0
    for input in "${inputs[@]}"; do
        if [ ! -e "$input" ] || [ "$input" -ef "$output" ]; then return 0; fi
    done
    make_plain "mcaprec: ${output@Q} is an MCAP file, and $command empties it first. Shall it? [y/N] "
    printf '%s' "$plain" >&2
    IFS= read -r answer || printf '\n' >&2
    case $answer in y | Y | yes | Yes | YES) return 0 ;; esac
    complain "nothing was done; another OUT keeps it, and --force as the first word asks nothing"
    return 1
}
