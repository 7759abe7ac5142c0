#!/bin/sh
# Packs the program that `make test` proved and tested: build/dist/desk-VERSION-linux-x86_64.tar.gz. The same build gives the same bytes.
set -eu

cd "$(dirname -- "$0")/.."
name=desk-$(cat VERSION)-linux-x86_64
python3 tests/proved.py --check
umask 022
room=$(mktemp -d)
trap 'rm -rf "$room"' EXIT
trap 'exit 1' HUP INT TERM

sh packaging/stage.sh "$room/$name"
mv "$room/$name/share/doc/desk/PROOF" "$room/$name/share/doc/desk/THIRD-PARTY" "$room/$name"
cp -R LICENSES "$room/$name"
cp packaging/INSTALL "$room/$name"
mkdir -p build/dist
tar -C "$room" --format=ustar --sort=name --mtime="$(sed -n 's/^date //p' build/proved)" --owner=0 --group=0 --numeric-owner \
    --mode='u=rwX,go=rX' -cf - "$name" | gzip -9n >"$room/packed"
cp "$room/packed" "build/dist/$name.tar.gz"
echo "Packed build/dist/$name.tar.gz."
