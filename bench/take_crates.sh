# Copies crates of this checkout into a folder, each with those that it is built on, by its line of crates.txt, and with what is
# proved of them. Sourced by scripts in bench/ and tests/, which make a crate of their own there.
# take_crates FOLDER CRATE..
top="$(cd "$(dirname "${BASH_SOURCE[0]}")/.." && pwd)"

take_crates() {
    local folder="$1" name line
    shift
    mkdir -p "$folder/crates"
    for name in "$@"; do
        # Others are libraries of the kit.
        if [ -d "$folder/crates/$name" ] || [ ! -d "$top/crates/$name" ]; then continue; fi
        cp -r "$top/crates/$name" "$folder/crates/$name"
        line="$(grep "^$name:" "$top/crates.txt")"
        echo "$line" >>"$folder/crates.txt"
        take_crates "$folder" ${line#*:}
    done
}
