#!/bin/sh
# Checks with a built program that nothing is wrong in a checkout of this tree by the desk's rules. Then its document is written and
# imported, and must have no findings.
#
#   tests/lint.sh PROGRAM
#
# The files are those that git tracks, copied to another folder, so that built and ignored files don't count. If there is no git,
# as in an unpacked archive, the tree is used as it is, without built files.
set -eu

here=$(unset CDPATH; cd -- "$(dirname -- "$0")/.." && pwd)
case ${1:?the program to run} in
    /*) program=$1 ;;
    *) program=$(pwd)/$1 ;;
esac

scratch=$(mktemp -d)
trap 'rm -rf "$scratch"' EXIT
trap 'exit 1' HUP INT TERM

cd "$here"
if git ls-files >"$scratch/list" 2>/dev/null && [ -s "$scratch/list" ]; then
    git ls-files -z >"$scratch/names"
else
    find . -type d \( -name out -o -name build -o -name .git \) -prune -o -type f -print0 >"$scratch/names"
fi
mkdir "$scratch/tree"
tar -c --null -T "$scratch/names" -f - | tar -x -C "$scratch/tree" -f -
# As a hook of pre-commit runs it.
hook=$(sed -n 's/^  entry: //p' .pre-commit-hooks.yaml)
mkdir "$scratch/bin"
ln -s "$program" "$scratch/bin/desk"
(cd "$scratch/tree" && PATH="$scratch/bin:$PATH" sh -c "${hook:?no entry of the hook}")
"$program" gather "$scratch/tree" --name desk --namespace https://example.org/desk --created 2026-01-01T00:00:00Z >"$scratch/document"
"$program" import --db "$scratch/office.db" "$scratch/document" >"$scratch/replies"
printf '{"ask":"findings","document":1}\n' | "$program" script --db "$scratch/office.db" >>"$scratch/replies"
printf '{"document":1,"new":true}\n{"rows":[]}\n' | cmp - "$scratch/replies"
echo 'Its document is imported and has no findings.'
