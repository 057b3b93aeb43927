#!/usr/bin/env bash
# Runs checks/replicated.py and checks/replicated_faults.py, whose heads say what they do, and sees that nothing that
# they started is left.
set -u
cd "$(dirname "${BASH_SOURCE[0]}")/.." || exit 1
command -v etcd >/dev/null || { echo "etcd is not installed (Debian: etcd-server)"; exit 1; }

# What the scripts start has this mark in its environment, and its namespaces have it in their names.
export CONFSTORE_CHECK_MARK=cf$$
status=0
timeout -k 10 420 python3 checks/replicated.py "$@" || status=1
timeout -k 10 920 python3 checks/replicated_faults.py || status=1

for environment in /proc/[0-9]*/environ; do
    process=${environment#/proc/}
    process=${process%/environ}
    [ "$process" != $$ ] || continue
    if tr '\0' '\n' 2>/dev/null <"$environment" | grep -qx "CONFSTORE_CHECK_MARK=$CONFSTORE_CHECK_MARK"; then
        echo "FAILED: process $process is left: $(tr '\0' ' ' 2>/dev/null <"/proc/$process/cmdline")"
        kill -KILL "$process" 2>/dev/null
        status=1
    fi
done
if command -v ip >/dev/null; then
    for left in $(ip netns list 2>/dev/null | grep -o "^$CONFSTORE_CHECK_MARK-[0-9]*"); do
        echo "FAILED: the namespace $left is left"
        ip netns delete "$left"
        status=1
    done
    if ip link show "$CONFSTORE_CHECK_MARK" >/dev/null 2>&1; then ip link delete "$CONFSTORE_CHECK_MARK"; fi
fi
exit "$status"
