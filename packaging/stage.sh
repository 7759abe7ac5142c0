#!/bin/sh
# Lays out what is installed: packaging/stage.sh FOLDER
#
# bin/desk is build/desk, byte by byte. share has the manual page and the completions, and in share/doc/desk the pages for users, two
# examples, the licence texts of the toolchain's crates, and what was proved (PROOF). It fails if build/desk isn't what `make test` proved.
set -eu

cd "$(dirname -- "$0")/.."
folder=${1:?the folder to write to}
doc=$folder/share/doc/desk

mkdir -p "$folder/bin" "$doc/docs" "$doc/examples"
python3 tests/proved.py --text >"$doc/PROOF"
python3 packaging/licences.py >"$doc/THIRD-PARTY"
cp build/desk "$folder/bin/desk"
sh manual/manual.sh build/desk "$folder/share"
cp README.md CHANGELOG.md SECURITY.md "$doc"
for page in AUDIT CATALOGUE COUNSEL DATABASE DECISIONS DOCUMENTS FILLS CREDITS HOSTILE HTTP LINT REFUSALS RELEASE REPORTS REQUESTS TABLES TRUST; do
    cp "docs/$page.md" "$doc/docs"
done
cp docs/page.png "$doc/docs"
cp packaging/desk.service "$doc/examples"
cp -R examples/catalogue examples/first-release examples/restore "$doc/examples"
