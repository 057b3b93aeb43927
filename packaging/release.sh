#!/usr/bin/env bash
# Makes the release of the program that was proved and built here: an archive and its manifest.
#
#     packaging/release.sh [FOLDER]
#
# They are put into FOLDER, which is release/ if none is given; the release that stands there is replaced. The program
# is the one that checks/gate.sh or ./prove left, and has to be of the sources that stand here. The same sources and
# toolchain make the same two files, byte by byte: release/README.md says what they are.
set -euo pipefail
umask 022
top=$(cd "$(dirname "${BASH_SOURCE[0]}")/.." && pwd)
# shellcheck source=packaging/program.sh
. "$top/packaging/program.sh"
# shellcheck source=packaging/files.sh
. "$top/packaging/files.sh"
target=${1:-$top/release}

sources=$(sum_of_sources src specs)
if ! is_built_of "$sources"; then
    echo "release.sh: no program was proved and built here of these sources: run checks/gate.sh first" >&2
    exit 1
fi
version=$("$built" --version | awk '{ print $2 }')
name=confstore-$version-linux-x86_64
room=$(mktemp -d)
trap 'rm -rf "$room"' EXIT

put_files "$built" "$room/$name"
put_ctl "$room/$name"
put_python "$room/$name/lib/confstore/python"
put 644 "$top/LICENSE" "$room/$name/share/doc/confstore/LICENSE"
tar --format=ustar --sort=name --mtime="@$RELEASE_TIME" --owner=0 --group=0 --numeric-owner -C "$room" -cf - "$name" |
    xz --threads=1 -9 --extreme --check=crc64 >"$room/$name.tar.xz"
mapfile -t image < <("$top/packaging/image.py" "$room/image" "$built")
{
    echo "version: $version"
    echo "archive: $name.tar.xz"
    echo "archive_sha256: $(sum_of "$room/$name.tar.xz")"
    echo "program_sha256: $(sum_of "$built")"
    echo "image_sha256: ${image[1]#sha256: }"
    echo "image_base_sha256: ${image[2]#base: }"
    echo "sources_sha256: $sources"
    echo "proofs_sha256: $(sum_of_sources proofs)"
    echo "toolchain: $(field "$record" toolchain)"
    echo "proved:"
    product_crates | sed 's/^/  - /'
} | "$built" format >"$room/manifest"

mkdir -p "$target"
rm -f "$target"/confstore-*.tar.xz
install -m 644 "$room/$name.tar.xz" "$room/manifest" "$target/"
echo "$target/$name.tar.xz"
