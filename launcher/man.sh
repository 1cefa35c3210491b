#!/bin/sh
# Prints the man page: the usage, what --help says, and the manual, docs/RECORDING.md. The text that is given is the version.
root=$(dirname -- "$0")/..

# A text of the manual's as one of the man page's.
convert() {
    LC_ALL=C awk '
    function plain(t) {
        gsub(/\\/, "\\e", t)
        gsub(/-/, "\\-", t)
        sub(/^[.'"'"']/, "\\\\\\&&", t)
        return t
    }
    # Words between stars or backquotes are bold; of a link its text is left.
    function inline(t) {
        t = plain(t)
        t = gensub_links(t)
        t = turn(t, "**")
        return turn(t, "`")
    }
    function turn(t, mark,    parts, n, i, out) {
        n = split_at(t, mark, parts)
        out = parts[1]
        for (i = 2; i <= n; i++) { out = out (i % 2 == 0 ? "\\fB" : "\\fR") parts[i] }
        return out
    }
    function split_at(t, mark, parts,    n, at) {
        n = 0
        while ((at = index(t, mark)) > 0) { parts[++n] = substr(t, 1, at - 1); t = substr(t, at + length(mark)) }
        parts[++n] = t
        return n
    }
    function gensub_links(t,    at, text) {
        while (match(t, /\[[^]]*\]\([^)]*\)/)) {
            at = substr(t, RSTART, RLENGTH)
            text = substr(at, 2, index(at, "](") - 2)
            t = substr(t, 1, RSTART - 1) text substr(t, RSTART + RLENGTH)
        }
        return t
    }
    function close_code() { if (in_code) { print ".fi\n.RE"; in_code = 0 } }
    function row(t,    cells, n, i, line) {
        gsub(/\\\|/, "\001", t)
        sub(/^\| */, "", t); sub(/ *\|$/, "", t)
        n = split(t, cells, / *\| */)
        for (i = 1; i <= n; i++) { gsub(/\001/, "|", cells[i]) }
        if (!in_table) { for (i = 1; i <= n; i++) { head[i] = cells[i] } in_table = 1; return }
        if (cells[1] ~ /^[-: ]+$/) { return }
        print ".TP\n" inline(cells[1])
        line = cells[2]
        for (i = 3; i <= n; i++) { line = line "; " head[i] " " cells[i] }
        print inline(line)
    }
    !/^    / { close_code() }
    !/^\|/ { in_table = 0 }
    /^#+ / { sub(/^#+ /, ""); print ".SH " toupper(plain($0)); next }
    /^    / { if (!in_code) { print ".RS 4\n.nf"; in_code = 1 } print plain(substr($0, 5)); next }
    /^\|/ { row($0); next }
    /^[-*] / { print ".IP \\(bu 2\n" inline(substr($0, 3)); next }
    /^[0-9]+\. / { number = $1; sub(/^[0-9]+\. /, ""); print ".IP " number " 4\n" inline($0); next }
    /^ *$/ { print ".PP"; next }
    { print inline($0) }
    END { close_code() }' "$@"
}

# A text whose lines stay as they are.
literal() {
    printf '.nf\n'
    sed -e 's/\\/\\e/g' -e 's/-/\\-/g' -e "s/^[.']/\\\\\\&&/"
    printf '.fi\n'
}

printf '.TH MCAPREC 1 "" "%s"\n' "${1-mcaprec}"
printf '.SH NAME\nmcaprec \\- records, checks, prints, recovers and merges MCAP files\n.SH SYNOPSIS\n'
"$root/.ci/usage" | sed -n 's/^  /mcaprec /p' | literal
printf '.SH COMMANDS AND OPTIONS\n'
literal <"$root/launcher/help.txt"
convert "$root/docs/RECORDING.md"
