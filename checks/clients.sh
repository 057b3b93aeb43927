#!/usr/bin/env bash
# Tries the clients and the packaging from a clean clone of the last commit, with the program that is built:
#
#     ./prove && checks/clients.sh
#
# - Python: the package is installed without a network, its types and those of all tests are checked where mypy is
#   installed, and its tests run over real stores, those of the server among them; and the tests of `replicated/` that
#   need no etcd.
# - The examples of the pages of python/, clients/ and release/, as they stand there.
# - C: the library and its test under the sanitizers of each compiler that is there, and under valgrind, over sessions
#   of its own and over a socket; the library as its Makefile installs it, shared and static, and its version.
# - Sixteen clients of one session that is killed and started again.
# - The types of the server and of the scripts in checks/ and bench/, where mypy is installed, and the server's bounds,
#   sockets, faults and ends, its health and its counters.
# - confstorectl beside the program: alone, through a server and through a node; and its watch.
# - Exceptions from signal handlers in each call of the Python package.
# - The Ansible collection, its types, and the playbook of the examples.
# - The settings for editors, the hook, the examples, the page of a log, the completions, the man pages, the Debian
#   packages, and the container image.
#
# What isn't installed is left out, with a line that says so. Each step has a limit of time, and ends what it started.
# The program is CONFSTORE, or the one that ./prove built. The last line is 'N passed, M failed', of steps, and the
# status is 0 if M is 0. It takes some ten minutes.
set -u
top=$(cd "$(dirname "${BASH_SOURCE[0]}")/.." && pwd)
CONFSTORE=${CONFSTORE:-$top/crates/confstore/out/confstore}
CONFSTORE=$(command -v "$CONFSTORE") || {
    echo "the program is not built: run ./prove first, or set CONFSTORE" >&2
    exit 1
}
CONFSTORE=$(realpath "$CONFSTORE")
export CONFSTORE
folder=$(mktemp -d) && chmod 755 "$folder" || exit 1  # other users run the server that is in it
server=
finish() {
    [ -z "$server" ] || kill "$server" 2>/dev/null
    rm -rf "$folder"
}
trap finish EXIT
trap 'exit 1' INT TERM
passed=0
failed=0

# Python with PyYAML: the system's, or the one on the PATH.
python=python3
for candidate in /usr/bin/python3 python3; do
    if "$candidate" -c 'import yaml' 2>/dev/null; then python=$candidate; break; fi
done

step() { # NAME SECONDS COMMAND..
    local name=$1 seconds=$2
    shift 2
    echo "== $name"
    if timeout -k 10 "$seconds" "$@" </dev/null; then
        passed=$((passed + 1))
    else
        echo "FAILED: $name"
        failed=$((failed + 1))
    fi
}

has() { command -v "$1" >/dev/null || { echo "left out: $1 is not installed"; false; }; }

git clone --quiet --no-hardlinks "$top" "$folder/clone" || exit 1
cd "$folder/clone" || exit 1
[ -z "$(git -C "$top" status --porcelain -- python clients replicated completions packaging release docs/man)" ] ||
    echo "the working tree has changes that are not tried: commit them first"

try_install() {
    "$python" -m pip install --quiet --disable-pip-version-check --no-index --no-build-isolation --no-deps \
        --root-user-action=ignore --target "$folder/site" "$folder/clone/python" || return 1
    rm -rf "$folder/clone/python/build" "$folder/clone/python/"*.egg-info
    mkdir "$folder/installed"
    cd "$folder/installed" && PYTHONPATH=$folder/site "$python" - <<'END'
import importlib.metadata, os, confstore
assert importlib.metadata.version("confstore") == confstore.__version__
assert os.path.exists(os.path.join(os.path.dirname(confstore.__file__), "py.typed"))
with confstore.Store("store", make=True) as store:
    store["web"] = {"port": "80"}
    assert store.set("web", "/port", "81") == 2 and store.export("web") == 'port: "81"\n'
END
}
export -f try_install
export python folder
step "the Python package is installed without a network" 120 bash -c try_install
types() {
    MYPYPATH=python:replicated:clients mypy --config-file python/pyproject.toml python/confstore \
        python/wheel_of_confstore.py replicated/confstore_replicated replicated/model
}
script_types() {
    MYPYPATH=checks:bench:clients:python:replicated mypy --strict --explicit-package-bases \
        --config-file python/pyproject.toml clients/serve.py python/pages_of_confstorectl.py packaging/image.py \
        {checks,bench}/{,lib/}*.py
}
# Each in a run of its own, as both are packages of the same name.
test_types() {
    local folder
    for folder in python replicated; do
        MYPYPATH=python:replicated:clients mypy --config-file python/pyproject.toml --explicit-package-bases \
            "$folder/tests" || return
    done
}
export -f types script_types test_types
if has mypy; then step "its types, and those of the replicated store" 120 bash -c types; fi
if has mypy; then step "the types of its tests" 120 bash -c test_types; fi
step "its tests" 600 env -C python "$python" -m unittest
step "the replicated store's tests without etcd" 300 env -C replicated "$python" -m unittest
step "the examples of the pages" 300 "$python" checks/readmes.py

warnings=(-std=c11 -Wall -Wextra -Wpedantic -Wconversion -Wshadow -Werror -g -O1)
sources=(clients/c/*.c "-Wl,--wrap=realloc" "-Wl,--wrap=calloc" -pthread)
mkdir "$folder/served"
"$python" clients/serve.py "$folder/socket" "$folder/served" &
server=$!
for _ in $(seq 100); do [ -S "$folder/socket" ] || sleep 0.1; done
for compiler in gcc clang; do
    has "$compiler" || continue
    step "the C library by $compiler" 60 "$compiler" "${warnings[@]}" -fsanitize=address,undefined \
        -fno-sanitize-recover=all -o "$folder/$compiler" "${sources[@]}"
    mkdir "$folder/c-$compiler"
    step "its test under the sanitizers of $compiler" 300 \
        "$folder/$compiler" "$CONFSTORE" "$folder/c-$compiler" "$folder/socket"
done
if has valgrind; then
    step "the C library without sanitizers" 60 cc "${warnings[@]}" -o "$folder/plain" "${sources[@]}"
    mkdir "$folder/c-valgrind"
    step "its test under valgrind" 600 valgrind --quiet --error-exitcode=9 --leak-check=full --show-leak-kinds=all \
        --child-silent-after-fork=yes "$folder/plain" "$CONFSTORE" "$folder/c-valgrind" "$folder/socket"
fi
if has make && has pkg-config; then
    step "the C library where it is installed" 600 clients/c/try.sh "$CONFSTORE" "$folder/socket"
fi
if has c++; then step "the header in C++" 60 c++ -fsyntax-only -Wall -Wextra -Werror -x c++ clients/c/confstore.h; fi
kill "$server" && wait "$server"
server=

if has mypy; then step "the types of the server and of the scripts in checks/ and bench/" 120 bash -c script_types; fi
step "sixteen clients of a session that is killed and started again" 300 "$python" checks/many_clients.py
step "the server: clients, the socket, faults and signals" 900 "$python" checks/server.py
step "confstorectl beside the program" 300 "$python" checks/ctl.py
step "exceptions from signal handlers" 900 "$python" checks/interrupts.py
collection_types() {
    MYPYPATH=checks:python:clients/ansible mypy --explicit-package-bases --config-file clients/ansible/mypy.ini \
        clients/ansible/try.py clients/ansible/ansible_collections
}
export -f collection_types
if has mypy; then step "the types of the Ansible collection" 120 bash -c collection_types; fi
step "the Ansible collection" 600 "$python" clients/ansible/try.py
step "two and three writers at once" 600 "$python" checks/two_writers.py
step "two writers while processes are killed" 600 "$python" checks/killed_writers.py
step "editors, the hook and the examples" 300 "$python" checks/editors.py
step "the page of a log" 300 "$python" checks/page.py
step "completions" 300 "$python" checks/completions.py
no_warnings() {
    for page in docs/man/*.[1-9]; do
        local said
        said=$(LC_ALL=C.UTF-8 man --warnings -E UTF-8 -l -Tutf8 -Z "$page" 2>&1 >/dev/null)
        if [ -n "$said" ]; then
            echo "$page: $said"
            return 1
        fi
    done
}
export -f no_warnings
if has man; then step "man pages" 60 bash -c no_warnings; fi
if has dpkg-deb; then
    step "the Debian packages" 300 packaging/deb/try.sh
    step "the Debian package of the nodes" 300 packaging/deb/try_replicated.sh
    step "an upgrade of the Debian packages" 300 packaging/deb/try_upgrade.sh
fi
step "the container image" 60 "$python" checks/image.py
echo "$passed passed, $failed failed"
[ "$failed" -eq 0 ]
