#!/usr/bin/env bash
# Looks whether release/ is what the sources here give: whether the wheel is what packaging/wheel.sh makes, the program
# that was proved and built here is the one in the archive, byte for byte, and the archive and the manifest are what
# packaging/release.sh makes.
#
#     checks/released.sh
#
# checks/gate.sh or ./prove have to run first. With another toolchain than the manifest's the wheel alone is compared,
# and a line says so. The status is 0 if nothing differs, and each difference has a line.
set -u
top=$(cd "$(dirname "${BASH_SOURCE[0]}")/.." && pwd) || exit 1
# shellcheck source=packaging/program.sh
. "$top/packaging/program.sh"
room=$(mktemp -d) || exit 1
trap 'rm -rf "$room"' EXIT
wrong=0

differs() {
    echo "WRONG: $*"
    wrong=1
}

# Looks whether the wheel of the release is the one that the Python package's sources make, and the only one.
compare_wheel() {
    local wheel file
    wheel=$("$top/packaging/wheel.sh" "$room/wheel") || exit 1
    [ -e "$top/release/${wheel##*/}" ] || differs "release/${wheel##*/} is missing"
    for file in "$top"/release/*.whl; do
        [ ! -e "$file" ] || { [ "${file##*/}" = "${wheel##*/}" ] && cmp -s "$wheel" "$file"; } ||
            differs "$file isn't the wheel that packaging/wheel.sh makes"
    done
}

compare_wheel
toolchain=$(rt version) || exit 1
if [ -f "$manifest" ] && [ "$(field "$manifest" toolchain)" != "$toolchain" ]; then
    echo "the release was made by $(field "$manifest" toolchain), and here is $toolchain: the program wasn't compared"
    exit "$wrong"
fi
made=$("$top/packaging/release.sh" "$room/made") || exit 1
if [ -f "$manifest" ]; then
    archive=$top/release/$(field "$manifest" archive)
    [ "$(sum_of "$archive")" = "$(field "$manifest" archive_sha256)" ] ||
        differs "$archive hasn't the SHA-256 of release/manifest"
    mkdir "$room/unpacked"
    tar -xJf "$archive" -C "$room/unpacked" --strip-components=1
    cmp "$built" "$room/unpacked/bin/confstore" || differs "the released program isn't the one that was proved here"
    # Another version of xz may pack the same files into other bytes.
    if ! cmp -s "$archive" "$made"; then
        if cmp <(xz -dc "$archive") <(xz -dc "$made"); then
            echo "the archive has the same files, packed by another xz than the $(xz --version | head -n 1) here"
        else
            differs "the archive isn't the one that packaging/release.sh makes"
        fi
    fi
    # The image has the C library of the system that it was made on.
    others='^archive_sha256:'
    if [ "$(field "$manifest" image_base_sha256)" != "$(field "$room/made/manifest" image_base_sha256)" ]; then
        echo "the image's sum is that of another system's C library than the one here: it wasn't compared"
        others='^\(archive\|image\|image_base\)_sha256:'
    fi
    diff <(grep -v "$others" "$manifest") <(grep -v "$others" "$room/made/manifest") ||
        differs "release/manifest isn't the one that packaging/release.sh makes"
    for file in "$top"/release/*.tar.xz; do
        [ "$file" = "$archive" ] || differs "$file isn't in release/manifest"
    done
else
    differs "release/manifest is missing"
fi
[ "$wrong" -eq 0 ] || echo "run packaging/release.sh, and commit release/ with the sources; wheel.sh makes the wheel"
exit "$wrong"
