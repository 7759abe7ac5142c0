#!/bin/sh
# The licence step of a release's build: what ships is recorded in a desk, the release is frozen, and its notices are written. It fails
# if something is missing, and after a freeze if a duty is open or a waiver has ended. Run it again once that is done: it continues where it
# stopped, with the same document.
#
#   RELEASE=kettle-1.0 sh licences.sh
#
#   RELEASE    the name of the release
#   FORM       the form in which it ships (binary)
#   DATABASE   the file of the desk, which outlives the build (../desk.db)
#   CATALOGUE  the catalogue of duties, for a new desk (catalogue.toml)
#   DOCUMENT   the SPDX document that a tool made; without it the folder where this runs is gathered
#   NAMESPACE  the namespace of a gathered document, which no other document has
#   CREATED    the time of that document; the same each time this runs for the release
#   OUTPUT     the folder for what is written: NOTICES, duties.csv, proposed.jsonl, wanting.jsonl (../licences)
#   DESK       the program (desk)
#
# Keep the desk and the output outside a folder that is gathered: what is in it belongs to the document.
set -eu

release=${RELEASE:?the name of the release}
database=${DATABASE:-../desk.db}
output=${OUTPUT:-../licences}
desk=${DESK:-desk}
mkdir -p "$output"

# The state of the release: open, frozen or withdrawn, or nothing if there is no such release.
state() {
    "$desk" list --db "$database" releases | awk -F , -v name="$release" '$1 == name { print $3 }'
}

# The documents that the release ships packages of, except this one.
others() {
    "$desk" ask --db "$database" release release="$release" | tr '[' '\n' | sed -n 's/^\([1-9][0-9]*\),"SPDXRef-.*/\1/p' |
        sort -u | grep -vx "$number" || :
}

# The document of what ships: the one that is given, or that of the tree.
document() {
    if [ -n "${DOCUMENT:-}" ]; then
        cat "$DOCUMENT"
    else
        "$desk" gather . --name "$release" --namespace "${NAMESPACE:?}" --created "${CREATED:?}"
    fi
}

if [ ! -s "$database" ]; then
    "$desk" catalogue --db "$database" "${CATALOGUE:-catalogue.toml}"
fi

document >"$output/document"
imported=$("$desk" import --db "$database" "$output/document") || :
number=$(echo "$imported" | sed -n 's/^{"document":\([0-9]*\),.*/\1/p')
if [ -z "$number" ]; then
    echo "The document is refused: $imported" >&2
    exit 1
fi

case $(state) in
    '') "$desk" do --db "$database" open release="$release" form="${FORM:-binary}" ;;
    withdrawn)
        echo "$release was withdrawn. Ship under another name." >&2
        exit 1
        ;;
esac
others=$(others)
if [ -n "$others" ]; then
    echo "$release ships document $others, and this one is document $number. Build it from the same document, or ship under another name." >&2
    exit 1
fi

if [ "$(state)" = open ]; then
    attached=$("$desk" do --db "$database" attach release="$release" document="$number") || case $attached in
        *AlreadyAttached*) ;;
        *)
            echo "The document is not attached: $attached" >&2
            exit 1
            ;;
    esac
    # Conclusions are for people to judge. A choice that is the only one is made here.
    "$desk" propose --db "$database" "$number" >"$output/proposed.jsonl"
    "$desk" choices --db "$database" "$release" >"$output/choices.jsonl"
    "$desk" script --db "$database" --stop <"$output/choices.jsonl"
    if ! "$desk" wanting --db "$database" "$release" >"$output/wanting.jsonl"; then
        echo "Not frozen. What is missing: $output/wanting.jsonl; proposals: $output/proposed.jsonl" >&2
        cat "$output/wanting.jsonl" >&2
        exit 1
    fi
    "$desk" do --db "$database" freeze release="$release" day=today
fi

"$desk" notices --db "$database" "$release" >"$output/NOTICES"
"$desk" duties --db "$database" "$release" >"$output/duties.csv"
if ! "$desk" ready --db "$database" --day today "$release"; then
    echo "Not ready to ship. The duties: $output/duties.csv; desk do --db $database meet duty=N day=today text=.." >&2
    exit 1
fi
