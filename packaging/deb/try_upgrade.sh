#!/usr/bin/env bash
# Upgrades the packages of an older release to those of the program here, in a root of their own, while a server of the
# older one holds a store and a client sends it commands one after the other, and then removes them.
#
#     packaging/deb/try_upgrade.sh [PROGRAM [COMMIT]]
#
# The older release is that of COMMIT, or the newest in the history that has another version; it is packed by its own
# scripts. If the history has none, that is said, and nothing is tried. No command fails, none that was answered is lost,
# the server that is started next runs the new program, and what was linked with the old library runs with the new. It
# needs dpkg, git, and root or fakeroot; and for the library make, cc, objdump and pkg-config. Nothing outside of a
# temporary folder is changed. The last line is 'N passed, M failed', and the status is 0 if M is 0.
set -u
top=$(cd "$(dirname "${BASH_SOURCE[0]}")/../.." && pwd)
# shellcheck source=packaging/program.sh
. "$top/packaging/program.sh"
program=${1:-${CONFSTORE:-}}
if [ -z "$program" ] && ! find_program; then
    echo "try_upgrade.sh: there is no program: ${why:-the line above says why}; ./prove builds one" >&2
    exit 1
fi
commit=${2:-}
if [ "$(id -u)" -ne 0 ] && [ -z "${FAKEROOTKEY:-}" ]; then
    if command -v fakeroot >/dev/null; then exec fakeroot "$0" "$program" $commit; fi
    echo "try_upgrade.sh: needs root or fakeroot" >&2
    exit 1
fi
new=$("$program" --version | awk '{ print $2 }')

version_of() { git -C "$top" show "$1:release/manifest" 2>/dev/null | sed -n 's/^version: "\(.*\)"$/\1/p'; }
# The newest commit whose release has another version.
find_older() {
    local found
    while read -r found; do
        [ "$(version_of "$found")" = "$new" ] || { commit=$found; return; }
    done < <(git -C "$top" log --format=%H -- release/manifest 2>/dev/null)
}
[ -n "$commit" ] || find_older
if [ -z "$commit" ]; then
    echo "left out: the history here has no release of another version than $new"
    exit 0
fi
old=$(version_of "$commit")

folder=$(mktemp -d) || exit 1
processes=()
finish() {
    [ "${#processes[@]}" -eq 0 ] || kill "${processes[@]}" 2>/dev/null
    rm -rf "$folder"
}
trap finish EXIT
compiler=  # for the library, if all is there that it is built with
if command -v make >/dev/null && command -v objdump >/dev/null && command -v pkg-config >/dev/null; then
    compiler=$(command -v "${CC:-cc}") || compiler=
fi
[ -n "$compiler" ] || echo "left out: the library, as not all is installed that it is built with"
tree=$folder/unpacked store=$folder/store socket=$folder/socket
passed=0
failed=0

# The command runs in this shell, which waits for the server and the client.
try() { # NAME COMMAND..
    local name=$1
    shift
    if "$@" >"$folder/tried" 2>&1; then
        passed=$((passed + 1))
    else
        echo "WRONG $name: $(cat "$folder/tried")"
        failed=$((failed + 1))
    fi
}

in_root() {
    dpkg --root="$tree" --force-script-chrootless --force-depends --log=/dev/null "$@"
}

# Makes the packages of the sources in a folder, those that they have a script for. Prints their paths.
packages() { # SOURCES PROGRAM FOLDER
    local script scripts=("$1"/packaging/deb/build_{python,replicated}.sh)
    "$1/packaging/deb/build.sh" "$3" "$2" || return
    if [ -n "$compiler" ]; then scripts+=("$1/packaging/deb/build_library.sh"); fi
    for script in "${scripts[@]}"; do
        [ ! -e "$script" ] || "$script" "$3" || return
    done
}
# The sources of the older release, with its program.
unpack_older() {
    local program_of=$folder/older/program
    mkdir -p "$program_of" && git -C "$top" archive "$commit" | tar -xf - -C "$folder/older" &&
        tar -xJf "$folder"/older/release/confstore-*.tar.xz -C "$program_of" --strip-components=1 &&
        mapfile -t olds < <(packages "$folder/older" "$program_of/bin/confstore" "$folder/old")
}

# A program that is linked with the library of the older release, and runs with that of the new one.
links() {
    local libraries=$tree/usr/lib/$("$compiler" -print-multiarch)
    printf '%s\n' '#include <confstore.h>' 'int main(void) { return !confstore_status_name(CONFSTORE_OK); }' \
        >"$folder/linked.c"
    "$compiler" -I"$tree/usr/include" -o "$folder/linked" "$folder/linked.c" -L"$libraries" -lconfstore -pthread && starts
}
starts() { LD_LIBRARY_PATH=$tree/usr/lib/$("$compiler" -print-multiarch) "$folder/linked"; }

# A server of the packages that are installed; `server` is its number.
serve() {
    CONFSTORE=$tree/usr/bin/confstore "$tree/usr/lib/confstore/serve.py" "$socket" "$store" 2>>"$folder/said" &
    server=$!
    processes+=("$server")
    for _ in $(seq 100); do [ ! -S "$socket" ] || return 0; sleep 0.1; done
    cat "$folder/said"
    return 1
}
# Ends the server as a service manager does.
end_server() {
    kill "$server" && wait "$server"
}
runs() { [ "$("/proc/$(pgrep -P "$server" -x confstore)/exe" --version)" = "confstore $1" ]; } # VERSION

# Sets /n to 1, 2, .. and notes each number once it was answered, until the file `stop` is there.
cat >"$folder/client.py" <<'CLIENT'
import os, socket, sys

path, folder = sys.argv[1:]
number = 0
if os.path.exists(f"{folder}/answered"):
    with open(f"{folder}/answered", encoding="ascii") as last:
        number = int(last.read())
client = socket.socket(socket.AF_UNIX)
client.settimeout(60)
client.connect(path)
answers = client.makefile()
while not os.path.exists(f"{folder}/stop"):
    client.sendall(f"set: web\npath: /n\nvalue: '{number + 1}'\n...\n".encode())
    said = [answers.readline() for _ in range(3)]
    if not said[1].startswith("ok: "):
        sys.exit(f"{number + 1} was answered by {said}")
    number += 1
    with open(f"{folder}/new", "w", encoding="ascii") as note:
        note.write(str(number))
    os.rename(f"{folder}/new", f"{folder}/answered")
CLIENT
send() {
    rm -f "$folder/stop"
    python3 -B "$folder/client.py" "$socket" "$folder" 2>"$folder/client" &
    client=$!
    processes+=("$client")
    goes_on
}
answered() { cat "$folder/answered" 2>/dev/null || echo 0; }
# Further commands are answered.
goes_on() {
    local before
    before=$(answered)
    for _ in $(seq 100); do [ "$(answered)" -le $((before + 20)) ] || return 0; sleep 0.1; done
    cat "$folder/client" "$folder/said"
    return 1
}
stop_sending() {
    : >"$folder/stop"
    wait "$client" || { cat "$folder/client"; return 1; }
}

has_version() { # VERSION PACKAGE..
    local version=$1 package name
    shift
    for package; do
        name=$(dpkg-deb --field "$package" Package)
        [ "$(in_root --status "$name" | sed -n 's/^Version: //p')" = "$version" ] && in_root --verify "$name" || return
    done
}
ctl() { env -u CONFSTORE PYTHONPATH="$tree/usr/lib/python3/dist-packages" "$tree/usr/bin/confstorectl" "$@"; }
shares() { # the new confstorectl, with the server
    ctl --socket "$socket" set "$store" web /by ctl && [ "$(ctl --socket "$socket" get "$store" web /by --raw)" = ctl ]
}
is_whole() { [ "$("$tree/usr/bin/confstore" verify "$store" | head -n 1)" = 'state: whole' ]; }
# The store has what was answered last, and a command for each answer, the import, and one of confstorectl.
has_all() {
    [ "$("$tree/usr/bin/confstore" get "$store" web /n --raw)" = "$(answered)" ] &&
        [ "$("$tree/usr/bin/confstore" log "$store" | wc -l)" -eq $(($(answered) + 2)) ]
}
names_of() { # PACKAGE..
    local package
    for package; do dpkg-deb --field "$package" Package; done
}
is_removed() { [ -z "$(find "$tree/usr" "$tree/etc/confstore-replicated" -type f -o -type l 2>/dev/null)" ]; }

mkdir -p "$tree/etc" "$tree/var/lib/dpkg/info" "$tree/var/lib/dpkg/updates" && : >"$tree/var/lib/dpkg/status"
unpack_older && [ "${#olds[@]}" -ge 1 ] || exit 1
mapfile -t news < <(packages "$top" "$program" "$folder/new-packages")
[ "${#news[@]}" -ge 3 ] || exit 1
echo "from $old, of $(git -C "$top" log -1 --format=%h "$commit"), in ${#olds[@]} packages, to $new"
try "install $old" in_root --install "${olds[@]}"
try "the versions" has_version "$old" "${olds[@]}"
[ -z "$compiler" ] || try "a program that is linked with the library" links
mkdir "$store" && echo 'n: "0"' | "$tree/usr/bin/confstore" import --init "$store" web || exit 1
serve || exit 1
try "the old program" runs "$old"
send || exit 1
try "upgrade, while the store is served" in_root --install "${news[@]}"
try "the versions" has_version "$new" "${news[@]}"
[ -z "$compiler" ] || try "that program with the new library" starts
try "the old session goes on" goes_on
try "it is the old program" runs "$old"
try "the new confstorectl through the old server" shares
try "no command failed" stop_sending
try "the old server ends" end_server
try "the store" is_whole
try "what was answered" has_all
serve || exit 1
try "the new program" runs "$new"
try "a client of the new server" send
try "no command failed" stop_sending
try "the new server ends" end_server
try "the store" is_whole
try "what was answered" has_all
mapfile -t names < <(names_of "${news[@]}")
try "remove" in_root --purge "${names[@]}"
try "nothing is left" is_removed
try "but the store" test -s "$store/store.yaml"
echo "$passed passed, $failed failed"
[ "$failed" -eq 0 ]
