#!/bin/sh
# Makes a package of Debian's form of the built program and what belongs to it:
#   packaging/make_deb.sh FOLDER      writes tiling_VERSION_ARCHITECTURE.deb into FOLDER
# `./tiling --build` comes first. The package needs nothing but the C library; the commands of the Python
# package need python3 and python3-numpy. TILING names another program, as for packaging/install.sh, which puts the
# files. MAINTAINER is who makes the package: the author of the last commit.

usage() {
    sed -n '2,/^$/s/^# \{0,1\}//p' "$0"
}
case ${1-} in
-h | --help) usage; exit ;;
esac
[ $# -eq 1 ] || { usage >&2; exit 2; }
set -e
top=$(cd "$(dirname "$0")/.." && pwd)
mkdir -p "$1"
folder=$(cd "$1" && pwd)
command -v dpkg-deb > /dev/null || { echo 'make_deb: there is no dpkg-deb' >&2; exit 1; }
umask 022
work=$(mktemp -d)
trap 'rm -rf "$work"' EXIT
root=$work/root
mkdir -p "$root/DEBIAN"
version=$(sed -n 's/^__version__ = "\(.*\)"$/\1/p' "$top/python/pagnetuf/__init__.py")
maintainer=${MAINTAINER:-$(git -C "$top" log -1 --format='%an <%ae>' 2> /dev/null || echo 'unknown <unknown@localhost>')}
architecture=$(dpkg --print-architecture)

DESTDIR=$root PYTHON=/usr/bin/python3 "$top/packaging/install.sh" --prefix /usr
# (dpkg keeps its own list of files and removes them by it)
rm -f "$root/usr/share/tiling/installed" "$root/usr/share/tiling/tools/uninstall.sh"
gzip -9n "$root/usr/share/man/man1/tiling.1"
cat > "$root/usr/share/doc/tiling/copyright" << END
Format: https://www.debian.org/doc/packaging-manuals/copyright-format/1.0/
Upstream-Name: pagnetuf
Comment: Made from a checkout of the repository. Its authors have named no licence yet.
END
{
    printf 'tiling (%s) unstable; urgency=low\n\n  * From the sources: %s\n\n -- %s  %s\n' "$version" \
        "$(git -C "$top" log -1 --format='%h, %s' 2> /dev/null || echo 'no commit')" "$maintainer" \
        "$(date -R -d "@$(git -C "$top" log -1 --format=%ct 2> /dev/null || echo 0)")"
} | gzip -9n > "$root/usr/share/doc/tiling/changelog.gz"

cat > "$root/DEBIAN/control" << END
Package: tiling
Version: $version
Architecture: $architecture
Maintainer: $maintainer
Installed-Size: $(du -sk --exclude=DEBIAN "$root" | cut -f 1)
Depends: libc6 (>= 2.34)
Recommends: python3 (>= 3.9), python3-numpy
Suggests: python3-networkx, python3-scipy
Section: math
Priority: optional
Description: exact aperiodic substitution tilings
 Penrose's kites and darts and rhombs, the tiling of Ammann and Beenker, chairs
 and half-hexes, and any tiling of a rule file: where the tile of an address
 lies, what is across its edges, and which tiles fill a window, even a million
 steps away. Exact, and proved.
 .
 With the C library and its header. Boards as data, posters in millimetres, a
 page to pan and zoom and pages about a rule are made in Python, with numpy.
END
printf 'activate-noawait ldconfig\n' > "$root/DEBIAN/triggers"
cat > "$root/DEBIAN/postinst" << 'END'
#!/bin/sh
set -e
if [ "$1" = configure ] && command -v py3compile > /dev/null; then
    py3compile -p tiling
fi
END
cat > "$root/DEBIAN/prerm" << 'END'
#!/bin/sh
set -e
if command -v py3clean > /dev/null; then
    py3clean -p tiling
else
    find /usr/lib/python3/dist-packages/pagnetuf -name __pycache__ -type d -exec rm -rf {} + 2> /dev/null || true
fi
END
chmod 755 "$root/DEBIAN/postinst" "$root/DEBIAN/prerm"
(cd "$root" && find usr -type f -exec md5sum {} + | LC_ALL=C sort -k 2) > "$root/DEBIAN/md5sums"
chmod 644 "$root/DEBIAN/md5sums"
file=$folder/tiling_${version}_$architecture.deb
dpkg-deb --root-owner-group -Zxz --build "$root" "$file" > /dev/null
echo "$file"
