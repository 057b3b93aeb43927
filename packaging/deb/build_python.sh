#!/usr/bin/env bash
# Makes the Debian package of the Python package, python3-confstore, which has confstorectl too.
#
#     packaging/deb/build_python.sh FOLDER
#
# The package is put into FOLDER, and its path is printed. It is one for all architectures, and needs no built program.
# The same commit makes the same package, byte by byte.
set -euo pipefail
umask 022
top=$(cd "$(dirname "${BASH_SOURCE[0]}")/../.." && pwd)
target=${1:?the folder to put the package in}

root=$(mktemp -d)
trap 'rm -rf "$root"' EXIT
# shellcheck source=packaging/deb/package.sh
. "$top/packaging/deb/package.sh"
version=$(sed -n 's/^__version__ = "\(.*\)"$/\1/p' "$top/python/confstore/__init__.py")

put_ctl "$root/usr"
# Debian has one Python for all programs of the system.
sed -i '1s|.*|#!/usr/bin/python3|' "$root/usr/bin/confstorectl"
put_python "$root/usr/lib/python3/dist-packages"
put 644 "$top/packaging/deb/README.python.md" "$root/usr/share/doc/python3-confstore/README.md"
put_papers python3-confstore "$version"

mkdir "$root/DEBIAN"
cat >"$root/DEBIAN/control" <<CONTROL
Package: python3-confstore
Source: confstore
Version: $version
Architecture: all
Maintainer: $maintainer
Installed-Size: $(installed_size)
Depends: python3 (>= 3.9), python3-yaml (>= 5.4)
Recommends: confstore (>= $version)
Suggests: python3-inotify
Section: python
Priority: optional
Description: crash-safe store of named configuration trees (Python 3)
 confstore keeps configurations in one file that survives a crash at any
 moment. This package starts sessions of it from Python, and reads and follows
 its stores. The program confstorectl changes and reads a store at a shell,
 also one that a server holds.
CONTROL
install -m 755 "$top/packaging/deb/python.postinst" "$root/DEBIAN/postinst"
install -m 755 "$top/packaging/deb/python.prerm" "$root/DEBIAN/prerm"
pack "$target" "python3-confstore_${version}_all.deb"
