#!/bin/sh
# Prints the completions for a shell, bash, zsh or fish, by the commands and options that help.txt tells.
root=$(dirname -- "$0")

# A line for each command and option: the command, the option or nothing, the name of its value or nothing, and what it does.
rows() {
    awk -v OFS='\t' '
    function tell(    text) {
        if (what == "") { return }
        text = what
        sub(/[:;(].*/, "", text)
        gsub(/^ +| +$/, "", text)
        gsub(/\047/, "", text)
        print command, option, value, text
        what = ""
    }
    /^ *$/ { tell(); next }
    /^[a-z]+ [A-Z]/ { tell(); command = $1; option = value = ""; what = substr($0, 20, 2) == "  " ? substr($0, 22) : " "; next }
    /^  --/ { tell(); option = $1; value = $2 ~ /^[A-Z:]+$/ ? $2 : ""; what = substr($0, 22); next }
    /^                     / { if (what != "") { what = what " " substr($0, 22) } next }
    { tell() }
    END { tell() }' "$root/help.txt"
}

for_bash() {
    cat <<'END'
# Completions of mcaprec for bash.
_mcaprec() {
    local options=
    if [ "$COMP_CWORD" -eq 1 ]; then
END
    printf "        COMPREPLY=(\$(compgen -W '%s help --help --version' -- \"\$2\"))\n" "$(rows | cut -f 1 | uniq | paste -sd ' ' -)"
    printf '        return\n    fi\n    case ${COMP_WORDS[1]} in\n'
    rows | awk -F '\t' '$2 != "" { all[$1] = all[$1] " " $2 } END { for (it in all) { printf "        %s) options=\047%s\047 ;;\n", it, substr(all[it], 2) } }' | sort
    cat <<'END'
    esac
    case $2 in
        -*) COMPREPLY=($(compgen -W "$options" -- "$2")) ;;
        *) COMPREPLY=() ;;
    esac
}
complete -o bashdefault -o default -F _mcaprec mcaprec
END
}

for_zsh() {
    cat <<'END'
#compdef mcaprec
# Completions of mcaprec for zsh.
_mcaprec() {
    local -a commands
    commands=(
END
    rows | awk -F '\t' '$2 == "" { printf "        \047%s:%s\047\n", $1, $4 }'
    cat <<'END'
        'help:prints what each command does'
    )
    if (( CURRENT == 2 )); then
        _describe command commands
        return
    fi
    shift words
    (( CURRENT-- ))
    case $words[1] in
END
    rows | awk -F '\t' '
        $1 != last { if (last != "") { print " \047*:file:_files\047 ;;" } printf "        %s) _arguments", $1; last = $1 }
        $2 != "" { printf " \047%s[%s]%s\047", $2 ($3 == "" ? "" : "="), $4, $3 == "" ? "" : ":" tolower($3) ": " }
        END { print " \047*:file:_files\047 ;;" }' | sed 's/:start:end: /:times: /'
    printf '    esac\n}\n_mcaprec "$@"\n'
}

for_fish() {
    printf '# Completions of mcaprec for fish.\n'
    rows | awk -F '\t' '
        $2 == "" { printf "complete -c mcaprec -n __fish_use_subcommand -f -a %s -d \047%s\047\n", $1, $4 }
        $2 != "" { printf "complete -c mcaprec -n \047__fish_seen_subcommand_from %s\047 -l %s%s -d \047%s\047\n", $1, substr($2, 3), $3 == "" ? "" : " -x", $4 }'
    printf "complete -c mcaprec -n __fish_use_subcommand -f -a help -d 'prints what each command does'\n"
    printf "complete -c mcaprec -n __fish_use_subcommand -l version -d 'prints the version'\n"
}

case ${1-} in
    bash | zsh | fish) "for_$1" ;;
    *) echo 'usage: completions.sh bash|zsh|fish' >&2 && exit 2 ;;
esac
