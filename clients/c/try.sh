#!/usr/bin/env bash
# Builds the library by its Makefile, installs it in a folder of its own, tries it there, and removes it again.
#
#     clients/c/try.sh [PROGRAM [SOCKET]]
#
# The program is CONFSTORE if none is given; without one, what needs a session is left out. SOCKET is that of a server.
# It needs make, nm, objdump and pkg-config, and gcc, clang or both. The last line is 'N passed, M failed', and the
# status is 0 if M is 0.
set -u
top=$(cd "$(dirname "${BASH_SOURCE[0]}")/../.." && pwd)
here=$top/clients/c
program=${1:-${CONFSTORE:-}}
socket=${2:-}
folder=$(mktemp -d) || exit 1
trap 'rm -rf "$folder"' EXIT
warnings=(-Wall -Wextra -Wpedantic -Wconversion -Wshadow -Werror)
passed=0
failed=0

try() { # NAME COMMAND..
    local name=$1 said
    shift
    if said=$("$@" 2>&1); then
        passed=$((passed + 1))
    else
        echo "WRONG $name: $said"
        failed=$((failed + 1))
    fi
}

# Installed for one place, and tried in another.
stage=$folder/stage
prefix=$stage/opt/confstore
run_make() { # COMPILER TARGET
    make -s -C "$here" CC="$1" CFLAGS="-O2 ${warnings[*]}" BUILD="$folder/$1" DESTDIR="$stage" PREFIX=/opt/confstore "$2"
}
installed() { (cd "$stage" && find . ! -type d | LC_ALL=C sort); }
has_files() {
    diff <(installed) - <<FILES
./opt/confstore/include/confstore.h
./opt/confstore/lib/libconfstore.a
./opt/confstore/lib/libconfstore.so
./opt/confstore/lib/libconfstore.so.0
./opt/confstore/lib/libconfstore.so.$version
./opt/confstore/lib/pkgconfig/confstore.pc
./opt/confstore/share/man/man3/confstore.3
FILES
}
is_removed() { [ -z "$(installed)" ]; }
names_no_folder() { ! grep -rlF "$folder" "$stage"; }
names_prefix() { grep -qx 'prefix=/opt/confstore' "$prefix/lib/pkgconfig/confstore.pc"; }
is_moved() { # whether pkg-config finds the prefix by itself where the files are now
    diff <(PKG_CONFIG_LIBDIR=$prefix/lib/pkgconfig pkg-config --define-prefix --variable=includedir confstore) \
        <(echo "$prefix/include")
}
test_shared() { # COMPILER
    mkdir "$folder/test-$1" &&
        "$1" -std=c11 "${warnings[@]}" -g -O1 -DINTERPOSE -o "$folder/test" "$here"/test_*.c -L"$prefix/lib" \
            -lconfstore -pthread && objdump -p "$folder/test" | grep -q 'NEEDED *libconfstore\.so\.0$' &&
        LD_LIBRARY_PATH=$prefix/lib "$folder/test" "$program" "$folder/test-$1" ${socket:+"$socket"}
}
unload() { # COMPILER
    "$1" -std=c11 "${warnings[@]}" -o "$folder/unload" "$here/shared/unload.c" -ldl &&
        "$folder/unload" "$prefix/lib/libconfstore.so"
}

# The version is the header's wherever it stands.
version=$(sed -n 's/^#define CONFSTORE_VERSION "\(.*\)"$/\1/p' "$here/confstore.h")
is_version() { [ -n "$version" ] && diff <(echo "$version") -; }
number_of_version() { # 1.2.3 is 1002003
    echo "$version" | awk -F. '{ print 1000000 * $1 + 1000 * $2 + $3 }' |
        diff <(sed -n 's/^#define CONFSTORE_VERSION_NUMBER //p' "$here/confstore.h") -
}
version_of_python() { sed -n 's/^__version__ = "\(.*\)"$/\1/p' "$top/python/confstore/__init__.py" | is_version; }
version_of_page() { sed -n 's/^\.TH .*"confstore \([^"]*\)".*/\1/p' "$top/docs/man/confstore.3" | is_version; }
version_of_program() {
    sed -n 's/^const VERSION: &str = "\(.*\)";$/\1/p' "$top/crates/conf_words/src/words.rt" | is_version
}
try "the version's number" number_of_version
try "the version of the Python package" version_of_python
try "the version of the man page" version_of_page
try "the version of the program" version_of_program

for compiler in gcc clang; do
    command -v "$compiler" >/dev/null || continue
    try "$compiler: build" run_make "$compiler" all
    try "$compiler: install" run_make "$compiler" install
    try "$compiler: what is installed" has_files
    try "$compiler: no file names where it was built" names_no_folder
    try "$compiler: the prefix" names_prefix
    try "$compiler: another prefix" is_moved
    try "$compiler: the library" "$here/try_installed.sh" "$prefix" "$prefix/lib" "$program"
    [ -z "$program" ] || try "$compiler: the test with the shared library" test_shared "$compiler"
    try "$compiler: unloaded" unload "$compiler"
    try "$compiler: uninstall" run_make "$compiler" uninstall
    try "$compiler: nothing is left" is_removed
done
[ -n "$program" ] || echo "left out: no program was given, so no session was started"
echo "$passed passed, $failed failed"
[ "$failed" -eq 0 ]
