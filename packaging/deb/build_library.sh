#!/usr/bin/env bash
# Makes the Debian packages of the C library: libconfstore0, with the shared library, which programs need that are
# linked with it, and libconfstore-dev, with the header, the static library, the file for pkg-config and the man page.
#
#     packaging/deb/build_library.sh FOLDER
#
# The packages are put into FOLDER, and their paths are printed, that of the shared library first. The library is built
# here by clients/c/Makefile; CC is its compiler. The same compiler and commit make the same packages, byte by byte.
set -euo pipefail
umask 022
top=$(cd "$(dirname "${BASH_SOURCE[0]}")/../.." && pwd)
target=${1:?the folder to put the packages in}

room=$(mktemp -d)
trap 'rm -rf "$room"' EXIT
# shellcheck source=packaging/deb/package.sh
. "$top/packaging/deb/package.sh"
compiler=${CC:-cc}
version=$(sed -n 's/^#define CONFSTORE_VERSION "\(.*\)"$/\1/p' "$top/clients/c/confstore.h")
architecture=$(dpkg --print-architecture)
# The libraries of each architecture have a folder of their own.
libraries=/usr/lib/$("$compiler" -print-multiarch)

development=$room/development
env -u MAKEFLAGS -u MAKELEVEL make -s -C "$top/clients/c" CC="$compiler" BUILD="$room/built" DESTDIR="$development" \
    PREFIX=/usr LIBDIR="$libraries" CPPFLAGS=-D_FORTIFY_SOURCE=2 CFLAGS='-O2 -fstack-protector-strong' \
    LDFLAGS='-Wl,-z,relro,-z,now' install >&2
soname=$(readlink "$development$libraries/libconfstore.so")
shared_package=libconfstore${soname##*.}
shared=$room/shared
mkdir -p "$shared$libraries" "$shared/DEBIAN" "$development/DEBIAN"
mv "$development$libraries"/libconfstore.so.* "$shared$libraries/"
strip --remove-section=.comment --remove-section=.note --strip-unneeded "$shared$libraries/libconfstore.so.$version"
strip --remove-section=.comment --remove-section=.note --strip-debug --enable-deterministic-archives \
    "$development$libraries/libconfstore.a"

root=$shared
put_papers "$shared_package" "$version"
cat >"$root/DEBIAN/control" <<CONTROL
Package: $shared_package
Source: confstore
Version: $version
Architecture: $architecture
Multi-Arch: same
Maintainer: $maintainer
Installed-Size: $(installed_size)
Depends: $(needed_c_library "$root$libraries/$soname")
Recommends: confstore
Section: libs
Priority: optional
Description: C library for a crash-safe store of named configuration trees
 confstore keeps configurations in one file that survives a crash at any
 moment. This library starts sessions of it, sends them commands, takes their
 answers, and watches what is changed in a store.
CONTROL
# Who is linked with the shared library depends on this package, from the version on that has what it uses; and the
# system's list of libraries is made again.
echo "libconfstore ${soname##*.} $shared_package (>= $version)" >"$root/DEBIAN/shlibs"
{
    printf '%s\n' "$soname $shared_package #MINVER#" "* Build-Depends-Package: libconfstore-dev"
    nm -D --defined-only --with-symbol-versions "$root$libraries/$soname" |
        awk '{ name = $2 == "A" ? $3 "@" $3 : $3; sub("@@", "@", name); since = name; sub(".*_", "", since)
               print " " name " " since }' | LC_ALL=C sort
} >"$root/DEBIAN/symbols"
echo "activate-noawait ldconfig" >"$root/DEBIAN/triggers"
pack "$target" "${shared_package}_${version}_$architecture.deb"

root=$development
put_papers libconfstore-dev "$version"
cat >"$root/DEBIAN/control" <<CONTROL
Package: libconfstore-dev
Source: confstore
Version: $version
Architecture: $architecture
Multi-Arch: same
Maintainer: $maintainer
Installed-Size: $(installed_size)
Depends: $shared_package (= $version), libc6-dev
Suggests: pkg-config
Section: libdevel
Priority: optional
Description: C library for a crash-safe store of named configuration trees (development)
 confstore keeps configurations in one file that survives a crash at any
 moment. This is what programs are compiled with that use its C library: the
 header, the static library, the file for pkg-config and the man page.
CONTROL
pack "$target" "libconfstore-dev_${version}_$architecture.deb"
