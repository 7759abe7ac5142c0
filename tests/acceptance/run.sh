#!/bin/sh
# Runs the acceptance cases on a built program, and ends with the line 'N passed, M failed'.
#
#   tests/acceptance/run.sh PROGRAM [CASE..]
#
# A case is a folder next to this script:
#   args        the words of the command line, one a line; or args.sh, which prints them
#   run         in place of args: a shell script that gets the program as its first word
#   stdin       standard input (none: empty)
#   stdout      what standard output must be (none: empty)
#   stderr      what standard error must be (none: empty)
#   status      the expected exit status (none: 0)
#   data/       files in the folder where the program runs
# or a text NAME.dialogue of requests and the replies to them, next to this script or in tests/dialogues, on which `script` runs:
# dialogue.py describes its form. The pages of docs/ that show a dialogue are cases too, by the name of their file.
set -eu

here=$(unset CDPATH; cd -- "$(dirname -- "$0")" && pwd)
dialogues=$here/../dialogues
pages=$here/../../docs
case ${1:?the program to run} in
    /*) program=$1 ;;
    *) program=$(pwd)/$1 ;;
esac
shift
if [ ! -x "$program" ]; then
    echo "$program: no such program" >&2
    exit 1
fi

scratch=$(mktemp -d)
trap 'rm -rf "$scratch"' EXIT
trap 'exit 1' HUP INT TERM

# Runs the program on the words of the file $1, one a line.
run_words() {
    list=$1
    shift
    while IFS= read -r word || [ -n "$word" ]; do
        set -- "$@" "$word"
    done <"$list"
    "$program" "$@"
}

# Reports if the file $2 differs from the file $1, or isn't empty if there is no file $1; $3 names it.
compare() {
    expected=$1
    [ -f "$expected" ] || expected=/dev/null
    cmp -s "$expected" "$2" || echo "$3 is: $(head -c 400 "$2")"
}

# Runs the dialogue of the file $1, and says what is wrong, if anything.
run_dialogue() {
    wanted=$(python3 -B "$here/dialogue.py" "$1" "$scratch/requests" "$scratch/replies")
    status=0
    "$program" script <"$scratch/requests" >"$scratch/out" 2>"$scratch/err" || status=$?
    [ "$status" -eq "$wanted" ] || echo "status $status, and not $wanted"
    cmp -s "$scratch/replies" "$scratch/out" || diff "$scratch/replies" "$scratch/out" | head -n 6 | cut -c 1-400
    compare "$scratch/none" "$scratch/err" 'standard error'
}

# Runs the case $1 in its own folder, and says what is wrong, if anything.
run_folder() {
    folder=$here/$1
    work=$scratch/work
    rm -rf "$work"
    mkdir "$work"
    if [ -d "$folder/data" ]; then
        cp -R "$folder/data/." "$work"
    fi
    input=/dev/null
    [ ! -f "$folder/stdin" ] || input=$folder/stdin
    wanted=0
    [ ! -f "$folder/status" ] || wanted=$(cat "$folder/status")

    status=0
    if [ -f "$folder/run" ]; then
        (cd "$work" && sh "$folder/run" "$program") <"$input" >"$scratch/out" 2>"$scratch/err" || status=$?
    else
        words=$folder/args
        if [ -f "$folder/args.sh" ]; then
            words=$scratch/words
            sh "$folder/args.sh" >"$words"
        fi
        (cd "$work" && run_words "$words") <"$input" >"$scratch/out" 2>"$scratch/err" || status=$?
    fi

    [ "$status" -eq "$wanted" ] || echo "status $status, and not $wanted"
    compare "$folder/stdout" "$scratch/out" 'standard output'
    compare "$folder/stderr" "$scratch/err" 'standard error'
}

# Runs the case $1, and says what is wrong, if anything.
run_case() {
    case $1 in
        *.md) run_dialogue "$pages/$1" ;;
        *)
            if [ -d "$here/$1" ]; then
                run_folder "$1"
            elif [ -f "$dialogues/$1.dialogue" ]; then
                run_dialogue "$dialogues/$1.dialogue"
            else
                run_dialogue "$here/$1.dialogue"
            fi
            ;;
    esac
}

if [ "$#" -eq 0 ]; then
    for case in "$here"/*/ "$here"/*.dialogue "$dialogues"/*.dialogue $(grep -l '^```dialogue$' "$pages"/*.md); do
        set -- "$@" "$(basename "$case" .dialogue)"
    done
fi

passed=0
failed=0
for name in "$@"; do
    wrong=$(run_case "$name")
    if [ -z "$wrong" ]; then
        passed=$((passed + 1))
    else
        failed=$((failed + 1))
        printf '%s: %s\n' "$name" "$wrong"
    fi
done
echo "$passed passed, $failed failed"
[ "$failed" -eq 0 ]
