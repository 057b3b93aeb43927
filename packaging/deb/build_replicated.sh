#!/usr/bin/env bash
# Makes the Debian package of the nodes of a replicated store: confstore-replicated, with the Python modules of
# replicated/ and of python/confstore, their words `node` and `log`, and the unit.
#
#     packaging/deb/build_replicated.sh FOLDER
#
# The package is put into FOLDER, and its path is printed. It needs the package confstore, and is for any architecture.
# The same commit makes the same package, byte by byte.
set -euo pipefail
umask 022
top=$(cd "$(dirname "${BASH_SOURCE[0]}")/../.." && pwd)
target=${1:?the folder to put the package in}

root=$(mktemp -d)
trap 'rm -rf "$root"' EXIT
# shellcheck source=packaging/deb/package.sh
. "$top/packaging/deb/package.sh"
version=$(sed -n 's/^__version__ = "\(.*\)"$/\1/p' "$top/python/confstore/__init__.py")
name=confstore-replicated
library=$root/usr/lib/$name

for module in "$top"/python/confstore/*.py "$top"/replicated/confstore_replicated/*.py; do
    put 644 "$module" "$library/$(basename "$(dirname "$module")")/$(basename "$module")"
done
for word in node log; do
    put 755 "$top/packaging/replicated_word.py" "$library/$word"
done
put 644 "$top/packaging/$name@.service" "$root/usr/lib/systemd/system/$name@.service"
put 644 "$top/replicated/README.md" "$root/usr/share/doc/$name/README.md"
install -d "$root/etc/$name"
put_papers "$name" "$version"

mkdir "$root/DEBIAN"
cat >"$root/DEBIAN/control" <<CONTROL
Package: $name
Source: confstore
Version: $version
Architecture: all
Maintainer: $maintainer
Installed-Size: $(installed_size)
Depends: confstore (>= $version), python3 (>= 3.9), python3-yaml
Recommends: etcd-server
Section: database
Priority: optional
Description: crash-safe store of configurations, the same on several machines
 confstore keeps configurations in one file that survives a crash at any
 moment. With this package several machines hold the same store: each runs a
 node, which performs the commands of a log in etcd, in its order, on a store
 of its own, and takes clients on a Unix socket.
CONTROL
install -m 755 "$top/packaging/deb/postinst_replicated" "$root/DEBIAN/postinst"
pack "$target" "${name}_${version}_all.deb"
