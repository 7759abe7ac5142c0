#!/bin/sh
# Runs the tests of single calls, compiled with checks of memory and overflow and without proof (`rt try --test`).
#
#   tests/units/run.sh [try | proved]
#
# The gate proves the crates that they call; a proof of the tests themselves would cost the gate more than it could show. So their sources
# are kept here as texts, and made a crate in a copy of the repository. With `proved` they are proved and built, and
# left as build/unit_tests, for tests/allocations/cases.py.
set -eu

cd "$(dirname -- "$0")/../.."
top=$(pwd)
room=$(mktemp -d)
trap 'rm -rf "$room"' EXIT
trap 'exit 1' HUP INT TERM
crate=desk_unit_tests
mkdir -p "$room/crates/$crate/src" "$room/crates/$crate/specs" "$room/crates/$crate/proofs"
cp HANDLES "$room"
{ cat crates.txt; echo "$crate: $(cat tests/units/libraries)"; } >"$room/crates.txt"
for folder in crates/*/; do
    name=$(basename "$folder")
    mkdir -p "$room/crates/$name"
    # (what was already proved of the crate is used here too)
    for part in src specs proofs out; do
        [ "$part" = out ] && [ "${1:-try}" = try ] && continue
        [ ! -d "$folder$part" ] || cp -a "$folder$part" "$room/crates/$name"
    done
done
for source in tests/units/src/*.rt.in; do
    cp "$source" "$room/crates/$crate/src/$(basename "$source" .in)"
done
: >"$room/crates/$crate/specs/Lib.antt"
: >"$room/crates/$crate/proofs/Lib.antt"
cd "$room/crates/$crate"
if [ "${1:-try}" = proved ]; then
    rt test
    mkdir -p "$top/build"
    cp "out/${crate}_tests" "$top/build/unit_tests"
else
    # Two tests read a million times, which takes more than the usual minute where much else runs.
    rt try --test --seconds 300
fi
