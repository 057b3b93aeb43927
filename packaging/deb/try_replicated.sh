#!/usr/bin/env bash
# Makes the package of the nodes twice, installs it beside that of the program in a root of its own, tries what is in
# it, and removes it again.
#
#     packaging/deb/try_replicated.sh [PROGRAM]
#
# It needs dpkg, root or fakeroot, and PyYAML for /usr/bin/python3. Where lintian is installed it looks at the package,
# and where systemd-analyze is, at the unit. Nothing outside of a temporary folder is changed. The last line is 'N
# passed, M failed', and the status is 0 if M is 0.
set -u
top=$(cd "$(dirname "${BASH_SOURCE[0]}")/../.." && pwd)
# shellcheck source=packaging/program.sh
. "$top/packaging/program.sh"
program=${1:-${CONFSTORE:-}}
if [ -z "$program" ] && ! find_program; then
    echo "try_replicated.sh: there is no program: ${why:-the line above says why}; ./prove builds one" >&2
    exit 1
fi
if [ "$(id -u)" -ne 0 ] && [ -z "${FAKEROOTKEY:-}" ]; then
    if command -v fakeroot >/dev/null; then exec fakeroot "$0" "$program"; fi
    echo "try_replicated.sh: needs root or fakeroot" >&2
    exit 1
fi
folder=$(mktemp -d) || exit 1
trap 'rm -rf "$folder"' EXIT
tree=$folder/unpacked
words=$tree/usr/lib/confstore-replicated
passed=0
failed=0

try() { # NAME COMMAND..
    local name=$1 said
    shift
    if said=$("$@" 2>&1); then
        passed=$((passed + 1))
    else
        echo "WRONG $name: $said"
        failed=$((failed + 1))
    fi
}

in_root() {
    dpkg --root="$tree" --force-script-chrootless --force-depends --log=/dev/null "$@"
}
helps() { "$words/$1" --help | grep -q "^usage: "; }
is_without() { [ -z "$(find "$tree" -name '*replicated*' ! -path '*/var/lib/dpkg/*')" ]; }
has_version() { [ "$(dpkg-deb --field "$1" Version)" = "$("$program" --version | awk '{ print $2 }')" ]; }

# A node whose etcd is not there starts, says so to those who ask, and ends well when it is told to.
serves() {
    local node said status
    env -u PYTHONPATH CONFSTORE="$tree/usr/bin/confstore" "$words/node" "$folder/socket" "$folder/store" 127.0.0.1:1 \
        >"$folder/said" 2>&1 &
    node=$!
    for _ in $(seq 100); do grep -qs ready "$folder/said" && break; sleep 0.1; done
    said=$(/usr/bin/python3 -c '
import socket, sys
client = socket.socket(socket.AF_UNIX)
client.settimeout(60)
client.connect(sys.argv[1])
client.sendall(b"{\"names\": \"\"}\n")
print(client.makefile().readline(), end="")' "$folder/socket")
    kill "$node"
    wait "$node"
    status=$?
    echo "$said, status $status"
    cat "$folder/said"
    [ "$said" = '{"names": []}' ] && [ "$status" -eq 0 ]
}
logs() {
    local mark='{set: replication, path: "/00000000000000000002", value: x}'
    printf '%s\n' "batch: [{import: replication, text: '{}'}, {import: web, text: 'port: 80'}, $mark]" ... |
        "$program" run "$folder/store" >/dev/null &&
        diff <(CONFSTORE=$program "$words/log" "$folder/store") <(echo '1 import web')
}
unit=$folder/confstore-replicated@try.service
copy_unit() {
    sed "s|=/usr|=$tree/usr|; s|^\(User\|Group\)=.*|\1=root|" \
        "$tree/usr/lib/systemd/system/confstore-replicated@.service" >"$unit"
}
verifies_unit() { [ -z "$(systemd-analyze verify --man=no --recursive-errors=no "$unit" 2>&1 | tee /dev/stderr)" ]; }
# The unit lets go of what a node does not need: systemd gives it points for what it keeps, of 100.
is_hardened() { systemd-analyze security --no-pager --offline=true --threshold=15 "$unit"; }
# What both units say is said alike, but for what a node does otherwise.
differs_where_it_has_to() {
    diff <(keys_that_differ) <(printf '%s\n' After Conflicts Description Documentation EnvironmentFile ExecStart \
        IPAddressDeny PrivateNetwork RestartPreventExitStatus RestrictAddressFamilies SocketBindDeny TasksMax Wants)
}
keys_that_differ() {
    diff <(settings "confstore@") <(settings "confstore-replicated@") | sed -n 's/^[<>] \([A-Za-z]*\)=.*/\1/p' | sort -u
}
settings() { sed 's/\\$//' "$top/packaging/$1.service" | grep '^[A-Z][A-Za-z]*=' | sort; }
checks_policy() {
    lintian --allow-root --fail-on error,warning \
        --suppress-tags bogus-mail-host,bogus-mail-host-in-debian-changelog,copyright-without-copyright-notice "$1"
}

mkdir -p "$tree/etc" "$tree/var/lib/dpkg/info" "$tree/var/lib/dpkg/updates" && : >"$tree/var/lib/dpkg/status"
beside=$("$top/packaging/deb/build.sh" "$folder/one" "$program") || exit 1
package=$("$top/packaging/deb/build_replicated.sh" "$folder/one") || exit 1
again=$("$top/packaging/deb/build_replicated.sh" "$folder/two") || exit 1
try "the same package twice" cmp "$package" "$again"
try "the program's version" has_version "$package"
try "install the program" in_root --install "$beside"
try "install" in_root --install "$package"
try "no file of the program's package" in_root --verify confstore
try "the licence" grep -q '^License: Apache-2.0$' "$tree/usr/share/doc/confstore-replicated/copyright"
try "the page" cmp "$top/replicated/README.md" "$tree/usr/share/doc/confstore-replicated/README.md"
for word in node log; do try "the help of $word" helps "$word"; done
try "a node without etcd" serves
try "its log" logs
try "the two units" differs_where_it_has_to
if command -v systemd-analyze >/dev/null; then
    try "a copy of the unit" copy_unit
    try "the unit" verifies_unit
    try "what the unit lets go of" is_hardened
fi
command -v lintian >/dev/null && try "Debian's policy" checks_policy "$package"
try "what is installed" in_root --verify confstore-replicated
try "remove" in_root --purge confstore-replicated
try "nothing of it is left" is_without
try "the program stays" in_root --verify confstore
echo "$passed passed, $failed failed"
[ "$failed" -eq 0 ]
