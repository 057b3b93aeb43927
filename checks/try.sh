#!/usr/bin/env bash
# The short test: tries the program by all scripts that need nothing else, some side by side.
#
#     checks/try.sh
#
# The program is the environment's CONFSTORE, or the one that ./confstore runs: the one that was proved and built here,
# or the released one. What a script needs beside it and isn't installed is named, and the script left out. A script's
# output is shown if it fails. The last line is 'N passed, M failed', of scripts, and the status is 0 if M is 0. It takes
# at most three minutes.
set -u
top=$(cd "$(dirname "${BASH_SOURCE[0]}")/.." && pwd -P) && cd "$top" || exit 1
# shellcheck source=packaging/program.sh
. "$top/packaging/program.sh" || exit 1
if [ -z "${CONFSTORE:-}" ]; then
    find_program || { echo "try.sh: there is no program: ${why:-the line above says why}; ./prove builds one" >&2; exit 1; }
    CONFSTORE=$program
fi
CONFSTORE=$(realpath "$CONFSTORE") && export CONFSTORE || exit 1
room=$(mktemp -d) || exit 1
trap 'rm -rf "$room"' EXIT
trap 'exit 1' INT TERM HUP
# shellcheck source=checks/lib/side_by_side.sh
. "$top/checks/lib/side_by_side.sh" || exit 1

# The package is installed in a root of its own, which root alone can do, or what acts as root.
as_root=
[ "$(id -u)" -eq 0 ] || as_root=fakeroot
# The scripts, those that take longest first, each with the commands that it needs.
SCRIPTS=(
    "checks/read_beside_session.py" "checks/fail_calls.py cc" "checks/fail_word_calls.py cc" "checks/sessions.py cc"
    "checks/kills.py" "checks/waiting_words.py" "checks/release.py xz" "python/tests" "checks/completions.py"
    "checks/many_clients.py" "checks/fail_file_calls.py cc" "checks/refuse_allocations.py cc -- texts sessions words"
    "packaging/deb/try.sh dpkg-deb $as_root" "checks/editors.py git" "checks/image.py ldd"
    "checks/names.py" "checks/program.py" "checks/guide.py" "checks/edits.py" "checks/lines.py" "checks/unused.py"
)

echo "trying $("$CONFSTORE" --version), $CONFSTORE"
at_once=$(nproc)
[ "$at_once" -le 4 ] || at_once=4
run_side_by_side "$at_once" "${SCRIPTS[@]}"
echo "$passed passed, $failed failed"
[ "$failed" -eq 0 ]
