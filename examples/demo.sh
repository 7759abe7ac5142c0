#!/bin/sh
# Shows the desk at work on real licences and a first release: examples/demo.sh [PROGRAM]
# Without a program the toolchain compiles the desk and runs it without a proof (`rt try`).
set -eu

here=$(unset CDPATH; cd -- "$(dirname -- "$0")" && pwd)
desk=${1:-}
room=$(mktemp -d)
trap 'rm -rf "$room"' EXIT
trap 'exit 1' HUP INT TERM
mkdir "$room/cases" "$room/shown" "$room/told"

# Adds a case: its name, its words, and its standard input, which is read from here.
add() {
    name=$1
    shift
    printf '%s\n' "$@" >"$room/cases/$name.args"
    cat >"$room/cases/$name"
}

# Adds a question about an expression and the words after it.
ask() {
    name=$1
    shift
    expression=$1
    shift
    {
        printf "\$ desk check '%s'" "$expression"
        printf " '%s'" "$@"
        echo
    } >"$room/shown/$name"
    add "$name" check "$expression" "$@" </dev/null
}

# Adds the question about the choice that the folder $2 has.
ask_about() {
    name=$1
    IFS= read -r licence <"$here/$2/expression"
    choice=$here/$2/choice
    set --
    while IFS= read -r term; do
        set -- "$@" "$term"
    done <"$choice"
    ask "$name" "$licence" "$@"
}

# Adds a question about an expression with operators in small letters.
ask_small() {
    small=$(printf '%s' "$licence" | sed 's/ AND / and /g; s/ OR / or /g')
    printf "\$ desk check --profile 2 '%s' 'MIT' 'Unicode-3.0'\n" "$small" >"$room/shown/5-small"
    add 5-small check --profile 2 "$small" MIT Unicode-3.0 </dev/null
}

# Each of the following runs the cases: told/NAME gets the output of one, told/NAME.status its status.

run_program() {
    for name; do
        set --
        while IFS= read -r word; do
            set -- "$@" "$word"
        done <"$room/cases/$name.args"
        status=0
        "$desk" "$@" <"$room/cases/$name" >"$room/told/$name" || status=$?
        echo "$status" >"$room/told/$name.status"
    done
}

run_unproved() {
    if ! (cd "$here/../crates/desk_program" && rt try --cases "$room/cases") >"$room/log" 2>&1; then
        cat "$room/log"
        exit 1
    fi
    awk -v told="$room/told/" '
        /^== / { name = $2; next }
        /^case=/ { sub(/.* status=/, ""); sub(/ .*/, ""); print >(told name ".status"); name = ""; next }
        name != "" { print >(told name) }' "$room/log"
}

# Shows the input and the output of the named cases.
show() {
    for name; do
        cat "$room/shown/$name" "$room/told/$name"
        printf '(status %s)\n\n' "$(cat "$room/told/$name.status")"
    done
}

# Shows requests, cut short, each with its reply.
show_script() {
    awk -v replies="$room/told/$1" '
        { print "> " (length($0) > 110 ? substr($0, 1, 107) "..." : $0) }
        (getline reply <replies) > 0 { print "< " reply }' "$room/cases/$1"
    printf '(status %s)\n' "$(cat "$room/told/$1.status")"
}

ask_about 1-unicode-ident unicode-ident
ask_about 2-linux-tls linux-tls
IFS= read -r licence <"$here/unicode-ident/expression"
ask 3-too-many "$licence" MIT Apache-2.0 Unicode-3.0
ask 4-too-few "$licence" MIT
ask_small
(cd "$here/first-release" && cat script.jsonl duties.jsonl ships.jsonl later.jsonl) | add 6-release script
add 7-findings script <"$here/findings/script.jsonl"

if [ -n "$desk" ]; then
    echo 'This is the program that was proved and built.'
    run_program 1-unicode-ident 2-linux-tls 3-too-many 4-too-few 5-small 6-release 7-findings
else
    command -v rt >/dev/null || { echo 'This needs rt, the Rattle toolchain.' >&2; exit 1; }
    echo 'This runs the desk WITH NO PROOF: it is compiled and shown, and nothing is checked.'
    echo '`make` proves each crate and builds the proved program. Compiling, which takes four to six minutes ...'
    run_unproved
fi

echo
echo 'The choice made for the Rust crate unicode-ident, and for a header of Linux:'
echo
show 1-unicode-ident 2-linux-tls
echo 'A term too many, and one too few:'
echo
show 3-too-many 4-too-few
echo 'The same licence with its operators in small letters, read by the profile that allows them:'
echo
show 5-small
echo 'A first release: requests (>), each with its reply (<). Then the findings of its document and'
echo 'what ships. Finally its duty is reopened, waived up to a day, open again after it, and withdrawn with the release.'
echo
echo '$ cd examples/first-release; cat script.jsonl duties.jsonl ships.jsonl later.jsonl | desk script'
show_script 6-release
echo
echo 'Where a document departs from the standard: the line, the number and the name of each finding. Then a release'
echo 'of it, with the package that ships.'
echo
echo '$ desk script < examples/findings/script.jsonl'
show_script 7-findings

echo
echo 'What ships with the first release, and the table of its duties, after its first requests:'
echo
echo '$ desk script --db office.db <script.jsonl && desk notices --db office.db r1 && desk duties --db office.db r1'
if [ -n "$desk" ]; then
    "$desk" script --db "$room/office.db" <"$here/first-release/script.jsonl" >"$room/log"
    "$desk" notices --db "$room/office.db" r1
    "$desk" duties --db "$room/office.db" r1
else
    echo '(without a proved program no desk is kept in a file; these are the texts that the tests compare)'
    cat "$here/first-release/NOTICES" "$here/first-release/duties.csv"
fi

if [ -n "$desk" ]; then
    echo
    echo "This repository itself, in a copy of what git tracks: what is wrong in it by the desk's rules, and the SPDX document that is"
    echo 'gathered from it, imported and asked for findings.'
    echo
    echo '$ tests/lint.sh desk    # desk lint, desk gather, desk import and desk script'
    sh "$here/../tests/lint.sh" "$desk"
fi
