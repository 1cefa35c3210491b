# shellcheck shell=bash disable=SC2154  # sourced by the launcher, which sets root, out, program and complain
# Proves and builds the program of this checkout.
#
# It is `rt ci` that works at as many crates side by side as there are processors and memory, the longest chain of crates
# first, that loads of the crates below only what they state, and that keeps each crate as soon as it is done, so that a build
# which was cut off goes on where it was. `rt run` proves one crate after the other over whole proofs, and `rt all --jobs N`
# asks for no memory. `rt ci NAME` works on a copy too, but with all edits that must be refused, and keeps no program. So here
# `rt ci` has a copy of the program's crates alone, without those edits.

# What the program was built from, as `sources` tells it.
built=$out/built-from

# The checksum of each file that the program is built from.
sources() {
    "$root/.ci/sources"
}

is_current() {
    [ -x "$program" ] && [ -f "$built" ] && [ "$(sources)" = "$(cat -- "$built")" ]
}

# Keeps what was built from, unless that changed meanwhile. By a rename, so that another run sees all of it or none.
keep() {
    if [ "$1" = "$(sources)" ]; then
        printf '%s\n' "$1" >"$built.$$" && mv -f -- "$built.$$" "$built"
    fi
}

# The lines of crates.txt of the program's crate and of all below it, in whatever order they are there.
lines_of_program() {
    awk -F: '
        function want(crate,    names, many, i) {
            if (crate in wanted) { return }
            wanted[crate] = 1
            many = split(below[crate], names, " ")
            for (i = 1; i <= many; i++) { want(names[i]) }
        }
        !/^#/ && NF > 1 { line[++lines] = $0; split($1, words, " "); name[lines] = words[1]; below[words[1]] = $2 }
        END {
            want("mcap_cli")
            for (i = 1; i <= lines; i++) { if (name[i] in wanted) { print line[i] } }
        }' "$root/crates.txt"
}

# Copies the program's crates to the folder, as the top of a repository, without what no proof of theirs reads.
copy_crates() {
    mkdir -p -- "$1/.git" "$1/crates" && lines_of_program >"$1/crates.txt" && cp -- "$root/HANDLES" "$1/" || return 1
    lines_of_program | sed 's/[ :].*//' | while IFS= read -r name; do
        mkdir -- "$1/crates/$name" || exit 1
        for part in "$root/crates/$name"/*; do
            case ${part##*/} in out | must-fail) continue ;; esac
            cp -R -- "$part" "$1/crates/$name/" || exit 1
        done
    done
}

# The minutes and seconds since the build began.
so_far() {
    local took=$(($(date +%s) - began))
    printf '%d:%02d' $((took / 60)) $((took % 60))
}

# Says of each crate that it is done, by the lines that rt writes, how many are and of how many, and keeps the lines in the
# file. On a terminal the time goes on beside it: a large crate takes minutes.
show_progress() {
    local many number=0 line rest='' clock=''
    many=$(lines_of_program | wc -l)
    while :; do
        IFS= read -r -t 5 line
        case $? in
            0) line=$rest$line rest='' ;;
            1) break ;;
            *)
                # What rt started may hold the pipe after it.
                kill -0 "$rt" 2>/dev/null || break
                rest=$rest$line
                [ ! -t 2 ] || { printf '\rmcaprec: %s' "$(so_far)" >&2 && clock=yes; }
                continue
                ;;
        esac
        printf '%s\n' "$line" >>"$1"
        [[ $line =~ rt:\ ([a-z0-9_]+)\ (is kept:|proved$) ]] || continue
        number=$((number + 1))
        complain_over "$clock" "$(so_far) proved ${BASH_REMATCH[1]}, crate $number of $many"
        clock=''
    done
    printf '%s' "$rest" >>"$1"
    [ -z "$clock" ] || printf '\r%20s\r' '' >&2
}

# Complains in the place of the time, where that stands there.
complain_over() {
    [ -z "$1" ] || printf '\r' >&2
    complain "$2"
}

# Removes the copies of builds that were killed.
remove_left_copies() {
    local left
    for left in "$1"/mcaprec-build-*; do
        [[ $left =~ -build-([0-9]+)-[A-Za-z0-9]+$ ]] || continue
        if [ -O "$left" ] && [ ! -e "/proc/${BASH_REMATCH[1]}" ]; then rm -rf -- "$left"; fi
    done
}

# Whether that is a program that says the usage, which it does with no words, and answers status 2.
says_usage() {
    "$1" >/dev/null 2>"$2" </dev/null
    [ $? -eq 2 ] && grep -qx 'mcaprec: bad words' "$2"
}

# Puts the program that was made into its place, unless rt refused its crate. That a test or a program's run failed, on a slow
# machine say, doesn't keep it away.
take_program() {
    local made=$1/crates/mcap_cli/out/mcap_cli
    grep -qE 'rt: mcap_cli (proved$|is kept:)' "$2" && [ -x "$made" ] && says_usage "$made" "$1/usage" || return 1
    mkdir -p -- "$out" && cp -- "$made" "$program.$$" && mv -f -- "$program.$$" "$program"
}

# Waits while another launcher builds here, and holds the turn.
take_turn() {
    mkdir -p -- "$out" && { exec 9>"$out/building"; } 2>/dev/null && command -v flock >/dev/null || return 0
    flock -n 9 && return
    complain 'another mcaprec is building the program of this checkout: waiting for it'
    flock 9
}

# Has rt prove and build in the folder, until it is done or a signal comes. Answers the status that a signal gives.
prove_in() {
    local ended=0 rt
    exec 8< <(cd -- "$1" && PYTHONUNBUFFERED=1 exec rt ci 2>&1 </dev/null 9>&-)
    rt=$!
    trap 'ended=130; kill -TERM "$rt"' INT
    trap 'ended=143; kill -TERM "$rt"' TERM HUP
    show_progress "$2" <&8
    exec 8<&-
    end_on_signals
    return "$ended"
}

# Where a signal comes while nothing runs that has to be ended first.
end_on_signals() {
    trap 'exit 130' INT
    trap 'exit 143' TERM HUP
}

# Proves and builds in the folder.
build_in() {
    local from said=$1/said
    from=$(sources)
    if ! copy_crates "$1/top"; then
        complain "the crates could not be copied to $1"
        return 1
    fi
    prove_in "$1/top" "$said" || return
    if take_program "$1/top" "$said"; then
        keep "$from"
        return
    fi
    tail -n 20 -- "$said" >&2
    complain 'the program could not be proved and built'
    return 1
}

build() {
    local began status
    if ! command -v rt >/dev/null; then
        complain "the program is not built yet, and rt, the command of the Rattle kit that builds it, is not on the PATH"
        return 1
    fi
    take_turn
    if is_current; then
        exec 9>&-
        return
    fi
    complain 'proving and building the program first, which may take an hour on four processors; a build that is cut off goes on where it was'
    began=$(date +%s)
    remove_left_copies "${TMPDIR:-/var/tmp}"
    room=''
    trap '[ -z "$room" ] || rm -rf -- "$room"' EXIT
    end_on_signals
    room=$(mktemp -d "${TMPDIR:-/var/tmp}/mcaprec-build-$$-XXXXXX") || return 1
    build_in "$room"
    status=$?
    rm -rf -- "$room"
    trap - EXIT INT TERM HUP
    exec 9>&-
    return "$status"
}
