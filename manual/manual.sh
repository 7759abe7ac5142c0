#!/bin/sh
# Writes the manual page of the desk and its completions for bash, zsh and fish, from the help that the program prints.
#
#   manual/manual.sh PROGRAM FOLDER
#
# FOLDER is laid out as a folder `share`: man/man1/desk.1, bash-completion/completions/desk, zsh/site-functions/_desk and
# fish/vendor_completions.d/desk.fish. help.awk describes how the help is read.
set -eu

here=$(unset CDPATH; cd -- "$(dirname -- "$0")" && pwd)
program=${1:?the program to ask}
folder=${2:?the folder to write to}
case $program in
    */*) ;;
    *) program=./$program ;;
esac

room=$(mktemp -d)
trap 'rm -rf "$room"' EXIT
trap 'exit 1' HUP INT TERM

# Prints what the program prints for these words.
ask() {
    "$program" "$@" </dev/null || { echo "$program $*: status $?" >&2; exit 1; }
}

# Reads the help of the page $1, which the words after it ask for.
read_help() {
    page=$1
    shift
    ask "$@" >"$room/help"
    awk -v page="$page" -f "$here/help.awk" "$room/help" >>"$room/words"
}

ask --version >"$room/version"
awk '{ print "-\tversion\t" $0 }' "$room/version" >"$room/words"
read_help - help
names=$(awk -F '\t' '$2 == "command" { print $3 }' "$room/words")
[ -n "$names" ] || { echo "$program help lists no commands" >&2; exit 1; }
for name in $names; do
    read_help "$name" help "$name"
done

# Writes the file $2 below the folder from the text $1.in, as $1.awk fills it.
write() {
    mkdir -p "$folder/${2%/*}"
    awk -f "$here/words.awk" -f "$here/$1.awk" "$room/words" "$here/$1.in" >"$folder/$2"
}

write man man/man1/desk.1
write bash bash-completion/completions/desk
write zsh zsh/site-functions/_desk
write fish fish/vendor_completions.d/desk.fish
