#!/usr/bin/env bash
# Puts the program, its launcher, a man page and completions for bash, zsh and fish under a prefix, or takes them away:
#     ./install.sh PREFIX
#     ./install.sh --remove PREFIX
# The program is proved and built first where it isn't yet. An installed mcaprec needs neither the checkout nor rt.
set -u

root=$(dirname -- "$(readlink -f -- "$0")")

fail() {
    printf 'install.sh: %s\n' "$1" >&2
    exit 1
}

# What is installed, below the prefix: the folder of the program, and the other files.
folder=lib/mcaprec
files=(bin/mcaprec share/man/man1/mcaprec.1 share/bash-completion/completions/mcaprec
    share/zsh/site-functions/_mcaprec share/fish/vendor_completions.d/mcaprec.fish)

# Makes a folder, with those above it, and notes which weren't there.
make_folder() {
    [ -z "$1" ] || [ -d "$1" ] || { make_folder "${1%/*}" && mkdir -- "$1" && folders=$1$'\n'$folders; }
}

# Copies a file, over what runs of an earlier one may still read, with that mode.
put() {
    local to=$prefix/$3
    if make_folder "${to%/*}" && cp -- "$2" "$to.new" && chmod "$1" "$to.new" && mv -f -- "$to.new" "$to"; then return; fi
    rm -f -- "$to.new"
    fail "$to could not be written"
}

# The output of a command as a file.
put_made() {
    local to=$1
    shift
    if ! "$@" >"$made"; then fail "$prefix/$to could not be made"; fi
    put 644 "$made" "$to"
}

install_program() {
    local part
    put 755 "$root/crates/mcap_cli/out/mcap_cli" "$folder/mcap_cli"
    put 755 "$root/mcaprec" "$folder/mcaprec"
    put 644 "$root/.ci/memory" "$folder/memory"
    put_made "$folder/usage.txt" "$root/.ci/usage"
    put_made "$folder/version.txt" "$root/launcher/version.sh"
    for part in help.txt run.sh words.sh relay.sh asking.sh progress.sh hints.sh; do put 644 "$root/launcher/$part" "$folder/launcher/$part"; done
    put 755 "$root/launcher/version.sh" "$folder/launcher/version.sh"
    link "../$folder/mcaprec"
    # Where bin is itself a link, what is above it is elsewhere.
    [ "$prefix/bin/mcaprec" -ef "$prefix/$folder/mcaprec" ] || link "$prefix/$folder/mcaprec"
}

link() {
    if ! ln -sfn -- "$1" "$prefix/bin/mcaprec"; then fail "$prefix/bin/mcaprec could not be made"; fi
}

install_texts() {
    put_made share/man/man1/mcaprec.1 "$root/launcher/man.sh" "$("$root/launcher/version.sh")"
    put_made share/bash-completion/completions/mcaprec "$root/launcher/completions.sh" bash
    put_made share/zsh/site-functions/_mcaprec "$root/launcher/completions.sh" zsh
    put_made share/fish/vendor_completions.d/mcaprec.fish "$root/launcher/completions.sh" fish
}

# Makes the folders, and notes which weren't there, those of an earlier run besides: first, so that what is cut off can be taken
# away.
install_folders() {
    local file
    for file in "${files[@]}" "$folder/launcher/help.txt"; do
        file=$prefix/$file
        make_folder "${file%/*}" || fail "${file%/*} could not be made"
    done
    [ ! -f "$prefix/$folder/folders" ] || folders+=$(cat -- "$prefix/$folder/folders")
    put_made "$folder/folders" printf '%s' "$folders"
}

# Takes away what was installed, and of the folders that were made for it those that are empty then.
remove() {
    local file folders
    if [ ! -f "$prefix/$folder/folders" ]; then fail "there is no mcaprec under $prefix"; fi
    folders=$(cat -- "$prefix/$folder/folders")
    for file in "${files[@]}"; do rm -f -- "${prefix:?}/$file"; done
    rm -rf -- "${prefix:?}/$folder"
    while IFS= read -r file; do rmdir -- "$file" 2>/dev/null; done <<<"$folders"
    true
}

# The folders that are made are noted one a line.
set_prefix() {
    [[ -n $1 && $1 != *$'\n'* ]] || fail 'a prefix is a folder, without a line break in its name'
    prefix=$(readlink -m -- "$1")
    [[ -n $prefix && $prefix != *$'\n'* ]] || fail "$1 is no folder"
}

case $#:${1-} in
    2:--remove)
        set_prefix "$2"
        remove
        ;;
    1:-* | 1:) fail 'give a prefix: ./install.sh PREFIX, or ./install.sh --remove PREFIX' ;;
    1:*)
        set_prefix "$1"
        "$root/mcaprec" info "$root/samples/one.mcap" >/dev/null </dev/null || fail 'the program is not built'
        # Others may run it too, whatever the caller's files are for.
        umask 022
        made=$(mktemp) || exit 1
        trap 'rm -f -- "$made"' EXIT
        folders=''
        install_folders
        install_program
        install_texts
        printf 'mcaprec is in %s\n' "$prefix/bin"
        ;;
    *) fail 'give a prefix: ./install.sh PREFIX, or ./install.sh --remove PREFIX' ;;
esac
