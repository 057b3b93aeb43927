#!/usr/bin/env bash
# Makes a Debian package of the program: the files of the release, and the pages that the README names.
#
#     packaging/deb/build.sh FOLDER [PROGRAM]
#
# The package is put into FOLDER, and its path is printed. The program is CONFSTORE, or the one that ./confstore runs.
# It is packed as it is, and not stripped, so that its checksum is the one of release/manifest. The same program and
# commit make the same package, byte by byte. The man page of the C library is in the package of build_library.sh.
set -euo pipefail
umask 022
top=$(cd "$(dirname "${BASH_SOURCE[0]}")/../.." && pwd)
# shellcheck source=packaging/program.sh
. "$top/packaging/program.sh"
target=${1:?the folder to put the package in}
program=${2:-${CONFSTORE:-}}
if [ -z "$program" ] && ! find_program; then
    echo "build.sh: there is no program: ${why:-the line above says why}; ./prove builds one" >&2
    exit 1
fi

root=$(mktemp -d)
trap 'rm -rf "$root"' EXIT
# shellcheck source=packaging/deb/package.sh
. "$top/packaging/deb/package.sh"
version=$("$program" --version | awk '{ print $2 }')
architecture=$(dpkg --print-architecture)

put_files "$program" "$root/usr"
rm -r "$root/usr/share/man/man3"
for page in packaging/deb/README.md CHANGELOG.md docs/{GUIDE,OPERATING,SESSION,STORE,FAULTS,STYLE}.md; do
    put 644 "$top/$page" "$root/usr/share/doc/confstore/$(basename "$page")"
done
put_papers confstore "$version"

mkdir "$root/DEBIAN"
cat >"$root/DEBIAN/control" <<CONTROL
Package: confstore
Version: $version
Architecture: $architecture
Maintainer: $maintainer
Installed-Size: $(installed_size)
Depends: $(needed_c_library "$program")
Recommends: python3-confstore (>= $version)
Suggests: python3
Section: database
Priority: optional
Description: crash-safe store of named configuration trees
 confstore keeps configurations, which are trees of texts, lists and mappings,
 in one file that survives a crash at any moment. The program is proved to meet
 its contracts. Its journal, commands and answers are YAML, in one style.
CONTROL
install -m 755 "$top/packaging/deb/postinst" "$root/DEBIAN/postinst"
pack "$target" "confstore_${version}_$architecture.deb"
