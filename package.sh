#!/bin/sh
# sh package.sh [FOLDER]: makes of bin/ringtap and bin/ringsize, or of the programs that RINGTAP and
# RINGSIZE name, a package for Debian and an archive of the same, ringtap_VERSION_ARCHITECTURE.deb
# and .tar.gz, in FOLDER or here.
# They are to try and not for an archive of packages. It needs dpkg-deb and python3.
set -eu
here=$(cd "$(dirname "$0")" && pwd)
folder=$(cd "${1:-.}" && pwd)
if ! command -v dpkg-deb >/dev/null; then
    echo "package.sh: dpkg-deb, of Debian's dpkg, isn't here" >&2
    exit 1
fi
version=$(sed -n 's/^## \([0-9][0-9.]*\).*/\1/p' "$here/CHANGELOG.md" | head -n 1)
architecture=$(dpkg --print-architecture)
name=ringtap_${version}_$architecture
room=$(mktemp -d)
trap 'rm -rf "$room"' EXIT
umask 022
sh "$here/install.sh" "$room/package/usr" >/dev/null
mkdir "$room/package/DEBIAN"
cat >"$room/package/DEBIAN/control" <<END
Package: ringtap
Version: $version
Architecture: $architecture
Maintainer: nobody <root@localhost>
Depends: libc6, libgcc-s1, python3
Suggests: tcpdump, librsvg2-bin
Section: net
Priority: optional
Description: rings of Linux packet sockets as a user-space runtime
 It puts packet captures through the receive ring of a packet socket, and shows
 what its reader gets and how many packets are dropped because the ring is full.
 ringsize prints the smallest ring with which none is.
END
(cd "$room/package" && find usr -type f -exec md5sum {} + >DEBIAN/md5sums)
dpkg-deb --root-owner-group --build "$room/package" "$folder/$name.deb" >/dev/null
mv "$room/package/usr" "$room/ringtap-$version"
tar -C "$room" --owner=0 --group=0 --numeric-owner --sort=name \
    -czf "$folder/$name.tar.gz" "ringtap-$version"
echo "made: $name.deb and $name.tar.gz"
