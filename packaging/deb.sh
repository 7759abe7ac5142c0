#!/bin/sh
# Makes a Debian package of the program that `make test` proved and tested: build/dist/desk_VERSION-1_amd64.deb. MAINTAINER, 'NAME
# <ADDRESS>', is the maintainer of the package.
set -eu

cd "$(dirname -- "$0")/.."
version=$(cat VERSION)
package=desk_$version-1_amd64.deb
maintainer=${MAINTAINER:-The licence obligation desk contributors <contributors@desk.invalid>}
python3 tests/proved.py --check
date=$(sed -n 's/^date //p' build/proved)
SOURCE_DATE_EPOCH=$(date -u -d "$date" +%s)
export SOURCE_DATE_EPOCH
umask 022
room=$(mktemp -d)
trap 'rm -rf "$room"' EXIT
trap 'exit 1' HUP INT TERM

sh packaging/stage.sh "$room/usr"
doc=$room/usr/share/doc/desk
sed 's,@VERSION@,'"$version"',' packaging/debian/copyright >"$doc/copyright"
gzip -9n <"$doc/CHANGELOG.md" >"$doc/changelog.gz"
rm "$doc/CHANGELOG.md"
printf 'desk (%s-1) unstable; urgency=medium\n\n  * Version %s; changelog.gz lists its changes.\n\n -- %s  %s\n' "$version" "$version" \
    "$maintainer" "$(LC_ALL=C date -u -R -d "$date")" | gzip -9n >"$doc/changelog.Debian.gz"
gzip -9n "$room/usr/share/man/man1/desk.1"
mkdir "$room/usr/share/zsh/vendor-completions"
mv "$room/usr/share/zsh/site-functions/_desk" "$room/usr/share/zsh/vendor-completions"
rmdir "$room/usr/share/zsh/site-functions"
mkdir -p "$room/usr/share/lintian/overrides"
cp packaging/debian/overrides "$room/usr/share/lintian/overrides/desk"

mkdir "$room/DEBIAN"
(cd "$room" && find usr -type f | LC_ALL=C sort | xargs md5sum) >"$room/DEBIAN/md5sums"
# the newest symbols of the C library that the program uses determine which version it needs
libc=$(LC_ALL=C grep -ao 'GLIBC_2\.[0-9.]*' build/desk | LC_ALL=C sort -Vu | tail -n 1 | sed 's/GLIBC_//')
needs="libc6 (>= ${libc:-2.17})"
! LC_ALL=C grep -aq 'libgcc_s\.so\.1' build/desk || needs="$needs, libgcc-s1"
size=$(find "$room/usr" -type f -printf '%s\n' | awk '{ kib += int(($1 + 1023) / 1024) } END { print kib }')
sed -e "s|@VERSION@|$version|" -e "s|@MAINTAINER@|$maintainer|" -e "s|@NEEDS@|$needs|" -e "s|@SIZE@|$size|" packaging/debian/control >"$room/DEBIAN/control"
find "$room" -exec touch -h -d "$date" '{}' +
chmod -R u=rwX,go=rX "$room"
mkdir -p build/dist
dpkg-deb --root-owner-group --threads-max=1 --build "$room" "build/dist/$package" >/dev/null
echo "Packed build/dist/$package."
