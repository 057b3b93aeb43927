#!/usr/bin/env bash
# Makes the packages of the program, of the Python package and of the C library, installs them in a root of their own,
# over older ones too, tries what is in them, and removes them again. So it does with confstorectl as the archive of a
# release has it, in a folder of any name.
#
#     packaging/deb/try.sh [PROGRAM]
#
# It needs dpkg, and root or fakeroot; and for the library make, cc, objdump and pkg-config. Where lintian is installed
# it looks at the packages. Nothing outside of a temporary folder is changed. The last line is 'N passed, M failed', and
# the status is 0 if M is 0.
set -u
top=$(cd "$(dirname "${BASH_SOURCE[0]}")/../.." && pwd)
# shellcheck source=packaging/program.sh
. "$top/packaging/program.sh"
# shellcheck source=packaging/files.sh
. "$top/packaging/files.sh"
program=${1:-${CONFSTORE:-}}
if [ -z "$program" ] && ! find_program; then
    echo "try.sh: there is no program: ${why:-the line above says why}; ./prove builds one" >&2
    exit 1
fi
if [ "$(id -u)" -ne 0 ] && [ -z "${FAKEROOTKEY:-}" ]; then
    if command -v fakeroot >/dev/null; then exec fakeroot "$0" "$program"; fi
    echo "try.sh: needs root or fakeroot" >&2
    exit 1
fi
folder=$(mktemp -d) || exit 1
trap 'rm -rf "$folder"' EXIT
tree=$folder/unpacked
library=()
passed=0
failed=0

try() { # NAME COMMAND..
    local name=$1 said
    shift
    if said=$("$@" 2>&1); then
        passed=$((passed + 1))
    else
        echo "WRONG $name: $said"
        failed=$((failed + 1))
    fi
}

in_root() {
    dpkg --root="$tree" --force-script-chrootless --force-depends --log=/dev/null "$@"
}

is_same() { cmp <("$@" 2>&1) <(printf '%s\n' "$wanted"); }
has_page() { man --warnings -E UTF-8 -l -Tutf8 "$1" >/dev/null; }
has_no_warning() { [ -z "$(man --warnings -E UTF-8 -l -Tutf8 -Z "$1" 2>&1 >/dev/null)" ]; }
is_removed() { [ -z "$(find "$tree/usr" -type f -o -type l 2>/dev/null)" ]; }
verifies_unit() {
    local unit=$folder/confstore@try.service
    sed "s|=/usr|=$tree/usr|; s|^\(User\|Group\)=.*|\1=root|" "$tree/usr/lib/systemd/system/confstore@.service" >"$unit"
    [ -z "$(systemd-analyze verify --man=no --recursive-errors=no "$unit" 2>&1)" ]
}
works() {
    mkdir "$folder/store" &&
        printf '%s\n' 'import: web' 'text: "port: 80"' ... | "$tree/usr/bin/confstore" run "$folder/store" >/dev/null &&
        [ "$("$tree/usr/bin/confstore" export "$folder/store" web)" = 'port: "80"' ]
}

# Each file and folder of the package's table of contents is there, and each page that it names.
names_what_is_there() { # PAGE
    local path
    # shellcheck disable=SC2016
    grep -oE '`/usr/[^ `]+`' "$1" | tr -d '`' | while read -r path; do
        [ -e "$tree$path" ] || { echo "$path is not there"; exit 1; }
    done && ! grep -oE '[A-Za-z/_-]+\.md' "$1" | grep -v '^/usr/share/doc/'
}

# An older package of the same name, so that the new one is an upgrade.
older() { # PACKAGE FOLDER
    dpkg-deb --raw-extract "$1" "$2/raw" &&
        sed -i 's/^Version: .*/Version: 0.0.1/' "$2/raw/DEBIAN/control" &&
        rm -f "$2/raw/usr/share/doc/confstore/README.md" && : >"$2/raw/usr/share/doc/confstore/OLD.md" &&
        dpkg-deb --root-owner-group --build "$2/raw" "$2/old.deb" >/dev/null && rm -rf "$2/raw"
}
is_upgraded() { # PACKAGE
    mkdir "$folder/older" && older "$1" "$folder/older" && in_root --install "$folder/older/old.deb" &&
        [ -e "$tree/usr/share/doc/confstore/OLD.md" ] && in_root --install "$1" &&
        [ ! -e "$tree/usr/share/doc/confstore/OLD.md" ] && in_root --verify confstore
}

# confstorectl, with Python's modules of the root.
ctl() { env -u CONFSTORE "PYTHONPATH=$tree/usr/lib/python3/dist-packages" "$tree/usr/bin/confstorectl" "$@"; }
ctl_works() {
    ctl set "$folder/store" web /port 81 && [ "$(ctl get "$folder/store" web /port --raw)" = 81 ] &&
        ctl batch "$folder/store" <<<'[{set: web, path: /port, value: 82}]' &&
        [ "$(ctl get "$folder/store" web /port --raw)" = 82 ]
}
imports() {
    PYTHONPATH=$tree/usr/lib/python3/dist-packages CONFSTORE=$tree/usr/bin/confstore python3 -c '
import os, sys, confstore
assert confstore.__file__.startswith(sys.argv[1]), confstore.__file__
assert os.path.exists(os.path.join(os.path.dirname(confstore.__file__), "py.typed"))
with confstore.Store(sys.argv[2]) as store:
    assert store.get("web", "/port") == "82"' "$tree" "$folder/store"
}

# The Python package, in the same root.
try_python() { # PACKAGE AGAIN
    local name=$tree/usr/share
    try "the same Python package twice" cmp "$1" "$2"
    try "install the Python package" in_root --install "$1"
    wanted="confstorectl $(dpkg-deb --field "$1" Version)"
    try "confstorectl" is_same ctl --version
    try "its words" ctl_works
    try "the Python package" imports
    try "the licence of the Python package" grep -q '^License: Apache-2.0$' "$name/doc/python3-confstore/copyright"
    try "what its README names" names_what_is_there "$name/doc/python3-confstore/README.md"
    try "the page of confstorectl" has_page "$name/man/man1/confstorectl.1.gz"
    try "no warning in that page" has_no_warning "$name/man/man1/confstorectl.1.gz"
    try "its completions in bash" bash -n "$name/bash-completion/completions/confstorectl"
    command -v zsh >/dev/null && try "in zsh" zsh -n "$name/zsh/vendor-completions/_confstorectl"
    command -v fish >/dev/null && try "in fish" fish -n "$name/fish/vendor_completions.d/confstorectl.fish"
    try "what is installed of the Python package" in_root --verify python3-confstore
    try "remove the Python package" in_root --purge python3-confstore
    try "nothing of the Python package is left" is_without_python
    try "the program stays" in_root --verify confstore
}
is_without_python() {
    ! find "$tree/usr" -name '*confstorectl*' -o -path '*/dist-packages/*' -type f -o -name '*.pyc' | grep .
}

# confstorectl in the folder of a release, which has a space in its name, and is reached by a link.
try_archive() {
    local place="$folder/a release"
    mkdir "$place" && put_files "$program" "$place" && put_ctl "$place" && put_python "$place/lib/confstore/python" &&
        ln -s "$place/bin/confstorectl" "$folder/linked-ctl" || failed=$((failed + 1))
    wanted="confstorectl $(sed -n 's/^__version__ = "\(.*\)"$/\1/p' "$top/python/confstore/__init__.py")"
    try "confstorectl of a release" is_same env -u CONFSTORE "$folder/linked-ctl" --version
    wanted=82
    try "it has the program beside it" \
        is_same env -u CONFSTORE PATH=/usr/bin:/bin "$folder/linked-ctl" get "$folder/store" web /port --raw
    wanted="confstorectl: MissingProgram: [Errno 2] no such program: '/none'"
    try "but one that is named" is_same env CONFSTORE=/none "$folder/linked-ctl" names "$folder/store"
    rm "$place/bin/confstore"
    wanted="confstorectl: MissingProgram: [Errno 2] no such program: 'confstore'"
    try "else it looks for one on the PATH" \
        is_same env -u CONFSTORE PATH=/usr/bin:/bin "$folder/linked-ctl" names "$folder/store"
}

# The C library, in the same root: it shares no file with the program.
try_library() { # SHARED DEVELOPMENT AGAIN..
    local shared=$1 development=$2 libraries page=$tree/usr/share/man/man3/confstore.3.gz package
    libraries=$tree/usr/lib/$("${CC:-cc}" -print-multiarch)
    try "the same package of the shared library twice" cmp "$shared" "$3"
    try "the same package for development twice" cmp "$development" "$4"
    try "install the library" in_root --install "$shared" "$development"
    try "the library" "$top/clients/c/try_installed.sh" "$tree/usr" "$libraries" "$program"
    try "the library's prefix" grep -qx 'prefix=/usr' "$libraries/pkgconfig/confstore.pc"
    for package in "$shared" "$development"; do
        try "the licence of $(name_of "$package")" grep -q '^License: Apache-2.0$' \
            "$tree/usr/share/doc/$(name_of "$package")/copyright"
        try "the version of $(name_of "$package")" is_version_of_library "$package"
        try "what is installed of $(name_of "$package")" in_root --verify "$(name_of "$package")"
    done
    try "the development package needs the same version" needs_same "$development" "$shared"
    try "what is linked with the library depends on" is_depended_on "$shared" "$libraries/libconfstore.so"
    try "the symbols of the library" has_symbols "$shared" "$libraries/libconfstore.so"
    try "the system's list of libraries" is_triggering "$shared"
    try "the library's page" has_page "$page"
    try "no warning in the library's page" has_no_warning "$page"
    try "a program that is linked with the library" link_program "$libraries"
    try "remove what is for development" in_root --purge libconfstore-dev
    try "that program goes on" env LD_LIBRARY_PATH="$libraries" "$folder/linked"
    try "remove the library" in_root --purge "$(name_of "$shared")"
    try "nothing of the library is left" is_without_library
    try "the program stays" in_root --verify confstore
}
name_of() { dpkg-deb --field "$1" Package; }
is_version_of_library() {
    diff <(dpkg-deb --field "$1" Version) \
        <(sed -n 's/^#define CONFSTORE_VERSION "\(.*\)"$/\1/p' "$top/clients/c/confstore.h")
}
needs_same() { # DEVELOPMENT SHARED
    dpkg-deb --field "$1" Depends | grep -qF "$(name_of "$2") (= $(dpkg-deb --field "$2" Version))"
}
of_control() { dpkg-deb --ctrl-tarfile "$1" | tar -xO "./$2"; } # PACKAGE FILE
is_depended_on() { # PACKAGE LIBRARY
    local soname
    soname=$(objdump -p "$2" | awk '$1 == "SONAME" { print $2 }')
    diff <(of_control "$1" shlibs) \
        <(echo "${soname%.so.*} ${soname##*.} $(name_of "$1") (>= $(dpkg-deb --field "$1" Version))")
}
# Each function that the library exports has the version that its symbol has.
has_symbols() { # PACKAGE LIBRARY
    diff <(of_control "$1" symbols | sed -n 's/^ \(confstore_[a-z_]*\)@CONFSTORE_\([0-9.]*\) \2$/\1@@CONFSTORE_\2/p') \
        <(nm -D --defined-only "$2" | awk '$2 == "T" { print $3 }' | LC_ALL=C sort)
}
is_triggering() { of_control "$1" triggers | grep -qx 'activate-noawait ldconfig'; }
link_program() { # LIBDIR
    local words
    printf '%s\n' '#include <confstore.h>' 'int main(void) { return !confstore_status_name(CONFSTORE_OK); }' \
        >"$folder/linked.c"
    read -ra words < <(PKG_CONFIG_LIBDIR=$1/pkgconfig pkg-config --define-variable=prefix="$tree/usr" --cflags --libs \
        confstore) && "${CC:-cc}" -o "$folder/linked" "$folder/linked.c" "${words[@]}" &&
        LD_LIBRARY_PATH=$1 "$folder/linked"
}
is_without_library() { [ -z "$(find "$tree/usr" -name '*libconfstore*' -o -name 'confstore.[h3]*' -o -name '*.pc')" ]; }
# What lintian finds wrong. Three findings are left out: the program is packed as it was proved, and not stripped;
# DEBEMAIL names who maintains the packages; and the copyright has no year.
checks_policy() { # PACKAGE..
    local tags=unstripped-binary-or-object,bogus-mail-host,bogus-mail-host-in-debian-changelog
    lintian --allow-root --fail-on error,warning --suppress-tags "$tags,copyright-without-copyright-notice" "$@"
}
can_build_library() {
    local tool
    for tool in make "${CC:-cc}" objdump pkg-config; do
        command -v "$tool" >/dev/null || { echo "left out: the library, as $tool is not installed"; return 1; }
    done
}

mkdir -p "$tree/etc" "$tree/var/lib/dpkg/info" "$tree/var/lib/dpkg/updates" && : >"$tree/var/lib/dpkg/status"
package=$("$top/packaging/deb/build.sh" "$folder/one" "$program") || exit 1
again=$("$top/packaging/deb/build.sh" "$folder/two" "$program") || exit 1
try "the same package twice" cmp "$package" "$again"
try "install, over an older one" is_upgraded "$package"
wanted=$("$program" --version)
command -v systemd-sysusers >/dev/null && try "the user" grep -q '^confstore:' "$tree/etc/passwd"
try "the program" is_same "$tree/usr/bin/confstore" --version
try "the same program" cmp "$program" "$tree/usr/bin/confstore"
try "the licence" grep -q '^License: Apache-2.0$' "$tree/usr/share/doc/confstore/copyright"
try "the guide" cmp "$top/docs/GUIDE.md" "$tree/usr/share/doc/confstore/GUIDE.md"
try "the operating page" cmp "$top/docs/OPERATING.md" "$tree/usr/share/doc/confstore/OPERATING.md"
try "a store" works
for page in "$tree"/usr/share/man/man*/*.gz; do
    try "$(basename "$page")" has_page "$page"
    try "no warning in $(basename "$page")" has_no_warning "$page"
done
try "bash's completions" bash -n "$tree/usr/share/bash-completion/completions/confstore"
command -v zsh >/dev/null && try "zsh's completions" zsh -n "$tree/usr/share/zsh/vendor-completions/_confstore"
command -v fish >/dev/null &&
    try "fish's completions" fish -n "$tree/usr/share/fish/vendor_completions.d/confstore.fish"
try "what its README names" names_what_is_there "$tree/usr/share/doc/confstore/README.md"
try "the server" "$tree/usr/lib/confstore/serve.py" --help
command -v systemd-analyze >/dev/null && try "the unit" verifies_unit
try "what is installed" in_root --verify confstore
python_package=$("$top/packaging/deb/build_python.sh" "$folder/one") || exit 1
try_python "$python_package" "$("$top/packaging/deb/build_python.sh" "$folder/two")"
try_archive
if can_build_library; then
    mapfile -t library < <("$top/packaging/deb/build_library.sh" "$folder/one")
    mapfile -t library_again < <("$top/packaging/deb/build_library.sh" "$folder/two")
    [ ${#library[@]} -eq 2 ] && [ ${#library_again[@]} -eq 2 ] || exit 1
    try_library "${library[@]}" "${library_again[@]}"
fi
command -v lintian >/dev/null && try "Debian's policy" checks_policy "$package" "$python_package" "${library[@]}"
try "remove" in_root --purge confstore
try "nothing is left" is_removed
echo "$passed passed, $failed failed"
[ "$failed" -eq 0 ]
