#!/usr/bin/env bash
# Tries the edits of crates/CRATE/must-fail-beside: wrong bodies that the prover has to refuse, beside those that the
# gate tries (crates/CRATE/must-fail). They are tried in a copy of the repository, so nothing here is changed: those of
# the bodies of different functions by one check, and any other alone (checks/lib/edits_together.py). What an earlier
# check kept in a crate's out/ is used, so run `rt check` in the crate first.
#
#   checks/wrong_bodies.sh [CRATE..]          the crates that are named, or all
#   checks/wrong_bodies.sh --since COMMIT     those whose code, definitions, proofs or edits changed since the commit
#
# A crate takes 1 to 5 minutes, and a line says how long. A crate whose edits were all refused gets its line in
# checks/data/edits-tried, which the gate compares with the crate (checks/edits.py). The last line is 'N refused, M
# not'; the status is 0 if M is 0, and 2 if the words are wrong.
set -u
top=$(cd "$(dirname "${BASH_SOURCE[0]}")/.." && pwd) || exit 1
cd "$top/crates" || exit 1

usage() {
    echo "wrong_bodies.sh: $1: checks/wrong_bodies.sh [CRATE.. | --since COMMIT]" >&2
    exit 2
}

# The crates that have edits beside the gate, each on a line.
all_crates() { find . -mindepth 2 -maxdepth 2 -name must-fail-beside -printf '%h\n' | sed 's|^\./||' | LC_ALL=C sort; }

# Those of them that changed since a commit, whether or not the change is committed.
changed_crates() { # COMMIT
    local changed
    changed=$({ git diff --name-only --relative "$1" -- . && git ls-files --others --exclude-standard .; } | cut -d/ -f1)
    all_crates | grep -Fx -f <(echo "$changed")
}

case ${1-} in
    --since)
        [ $# -eq 2 ] || usage "--since wants a commit"
        git rev-parse --quiet --verify "$2^{commit}" >/dev/null || usage "there is no commit $2"
        mapfile -t crates < <(changed_crates "$2")
        ;;
    -*) usage "there is no option $1" ;;
    "") mapfile -t crates < <(all_crates) ;;
    *) crates=("$@") ;;
esac
for crate in "${crates[@]}"; do [ -d "$crate/must-fail-beside" ] || usage "$crate has no edits beside the gate"; done

declare -A sums
for crate in "${crates[@]}"; do sums[$crate]=$("$top/checks/edits.py" --sum "$crate") || exit 1; done
work=$(mktemp -d) || exit 1
trap 'rm -rf "$work"' EXIT
trap 'exit 1' INT TERM HUP

# Copies the crates. What checks kept takes gigabytes, so it gets second names where both are on one device: rt replaces
# these files, and never writes into one.
copy_crates() {
    local kept
    cp "$top/crates.txt" "$top/HANDLES" "$work/" && mkdir "$work/crates" &&
        tar -cf - --exclude=out --exclude='must-fail*' . | tar -xf - -C "$work/crates" || return
    for kept in */out; do
        [ -d "$kept" ] || continue
        cp -al "$kept" "$work/crates/$kept" 2>/dev/null ||
            { rm -rf "${work:?}/crates/$kept" && cp -a "$kept" "$work/crates/$kept"; } || return
    done
    git init -q "$work"
}

copy_crates || exit 1
refused=0
passed=0
for crate in "${crates[@]}"; do
    edits=$top/crates/$crate/must-fail-beside
    tried=$(find "$edits" -name '*.edit' | wc -l)
    SECONDS=0
    log=$work/$crate.log
    (cd "$work" && PYTHONUNBUFFERED=1 "$top/checks/lib/edits_together.py" "crates/$crate" "$edits"/*.edit) >"$log" 2>&1
    grep -E '\.edit: ' "$log" || cat "$log"
    good=$(grep -c '\.edit: refused, as it must be' "$log")
    echo "$crate: $good of $tried refused in $SECONDS s"
    [ "$good" -ne "$tried" ] || "$top/checks/edits.py" --tried "$crate" "${sums[$crate]}"
    refused=$((refused + good))
    passed=$((passed + tried - good))
done
echo "$refused refused, $passed not"
[ "$passed" -eq 0 ]
