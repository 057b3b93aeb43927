# shellcheck shell=bash disable=SC2154
# What the packages share. It is sourced, with `top`, and with `root`, the folder that is packed. DEBFULLNAME and
# DEBEMAIL name the maintainer. All times in a package are that of the commit.

# shellcheck source=packaging/files.sh
. "$top/packaging/files.sh"
SOURCE_DATE_EPOCH=${SOURCE_DATE_EPOCH:-$(git -C "$top" log -1 --format=%ct 2>/dev/null || echo "$RELEASE_TIME")}
export SOURCE_DATE_EPOCH
maintainer="${DEBFULLNAME:-the confstore authors} <${DEBEMAIL:-confstore@localhost}>"

# The C library that a program or a library needs: the newest version of a symbol that it uses.
needed_c_library() { # FILE
    local version
    version=$(objdump -T "$1" 2>/dev/null | sed -n 's/.*GLIBC_\([0-9.]*\).*/\1/p' | sort -Vu | tail -n 1 || true)
    echo "libc6${version:+ (>= $version)}"
}

# Compresses the man pages, and puts in the copyright and the list of changes.
put_papers() { # NAME VERSION
    find "$root/usr" -path '*/share/man/*' -type f -exec gzip -n9 {} +
    put 644 "$top/packaging/deb/copyright" "$root/usr/share/doc/$1/copyright"
    gzip -n9 >"$root/usr/share/doc/$1/changelog.gz" <<CHANGES
$1 ($2) unstable; urgency=medium

  * CHANGELOG.md has what was made.

 -- $maintainer  $(LC_ALL=C date -u -R -d "@$SOURCE_DATE_EPOCH")
CHANGES
}

installed_size() { du -sk --exclude=DEBIAN "$root" | cut -f 1; }

# Packs the folder, which has its DEBIAN/control, and prints the package's path.
pack() { # FOLDER FILE
    chmod 755 "$root"
    (cd "$root" && find usr -type f -print0 | LC_ALL=C sort -z | xargs -0 md5sum >DEBIAN/md5sums)
    find "$root" -exec touch -h -d "@$SOURCE_DATE_EPOCH" {} +
    mkdir -p "$1"
    dpkg-deb --root-owner-group -Zxz --build "$root" "$1/$2" >/dev/null
    echo "$1/$2"
}
