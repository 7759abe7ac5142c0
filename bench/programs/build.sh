#!/bin/sh
# Proves and builds the programs that only the benchmarks run: bench/programs/build.sh NAME ...
#
# Each is kept here as a text, `NAME/main.rt.in`, with the `libraries` that it uses, so that the merge gate doesn't prove it. It is
# built as a crate in a copy of the repository, and copied to build/bench/NAME.
set -eu

cd "$(dirname -- "$0")/../.."
top=$(pwd)
room=$(mktemp -d)
trap 'rm -rf "$room"' EXIT
trap 'exit 1' HUP INT TERM
mkdir -p "$room/crates" build/bench
cp HANDLES "$room"
cp crates.txt "$room/crates.txt"
for crate in crates/*/; do
    name=$(basename "$crate")
    mkdir -p "$room/crates/$name"
    # (what was already proved of the crate is used here too)
    for part in src specs proofs out; do
        [ ! -d "$crate$part" ] || cp -a "$crate$part" "$room/crates/$name"
    done
done
for name; do
    crate=desk_${name}_bench
    mkdir -p "$room/crates/$crate/src" "$room/crates/$crate/specs" "$room/crates/$crate/proofs"
    cp "bench/programs/$name/main.rt.in" "$room/crates/$crate/src/main.rt"
    : >"$room/crates/$crate/specs/Lib.antt"
    : >"$room/crates/$crate/proofs/Lib.antt"
    echo "$crate: $(cat "bench/programs/$name/libraries")" >>"$room/crates.txt"
    (cd "$room/crates/$crate" && rt run </dev/null) >build/log 2>&1 || { cat build/log; exit 1; }
    cp "$room/crates/$crate/out/$crate" "$top/build/bench/$name"
done
