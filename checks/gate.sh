#!/usr/bin/env bash
# The gate: proves every crate from nothing, tries the edits that the prover has to refuse and runs the tests and
# programs (rt ci), and then tries the programs that this built by the scripts below, side by side. After the proof the
# program that it built is looked up in release/.
#
#     checks/gate.sh
#
# The proof, and each script, has a line that says how long it took, by the clock and in time of processors. What a
# script printed is shown if it failed. The last line is 'N passed, M failed', of crates, edits and scripts; the status is
# 0 if M is 0.
set -u
top=$(cd "$(dirname "${BASH_SOURCE[0]}")/.." && pwd -P) && cd "$top" || exit 1
# shellcheck source=packaging/program.sh
. "$top/packaging/program.sh" || exit 1
# The scripts try the program that the proof builds, and no other.
unset CONFSTORE
room=$(mktemp -d) || exit 1
trap 'rm -rf "$room"' EXIT
trap 'exit 1' INT TERM HUP
# shellcheck source=checks/lib/side_by_side.sh
. "$top/checks/lib/side_by_side.sh" || exit 1

# The scripts, those that take longest first.
SCRIPTS=(
    checks/fail_calls.py checks/fail_word_calls.py checks/refuse_allocations.py checks/release.py checks/released.sh
    checks/search_schedules.py checks/fail_file_calls.py checks/cases.py checks/names.py checks/program.py
    checks/search_locks.py checks/worlds.py checks/edits.py checks/imports.py checks/lines.py checks/unused.py
    checks/reading_list.py
)
# The memory that a check may take, in KiB.
MEMORY_OF_A_CHECK=$((4 << 20))
# With fewer checks at one time, rt does as well by itself.
LEAST_AT_ONCE=4

# Has rt give each check one job, and each processor a check, where the memory allows: more jobs for a check take more
# of the processors than they save by the clock.
choose_jobs() {
    local processors available at_once
    processors=$(nproc)
    available=$(sed -n 's/^MemAvailable: *\([0-9]*\) kB$/\1/p' /proc/meminfo)
    at_once=$((available / MEMORY_OF_A_CHECK))
    [ "$at_once" -le "$processors" ] || at_once=$processors
    if [ "$at_once" -ge "$LEAST_AT_ONCE" ]; then export RT_JOBS=$at_once; fi
}

# Proves all, and notes of which sources the program was made.
prove_all() {
    local before sum
    before=$(state_of_sources)
    sum=$(sum_of_sources src specs) || return
    choose_jobs
    rt ci 2>&1 | tee "$room/log"
    [ "${PIPESTATUS[0]}" -eq 0 ] || return
    if [ "$(state_of_sources)" != "$before" ]; then
        echo "the sources changed while they were proved: run the gate again"
        return 1
    fi
    record_built "$sum"
}

# What an interrupted ./prove has left is not a part of the sources.
if [ -e out/proof ] && ! flock --nonblock out/proof.lock rm -rf out/proof; then
    echo "a ./prove runs here: wait until it has ended"
    echo "0 passed, 1 failed"
    exit 1
fi
if ! timed "$room/time" prove_all </dev/null; then
    tail -n 1 "$room/log" 2>/dev/null | grep -E '^[0-9]+ passed, [1-9][0-9]* failed$' || echo "0 passed, 1 failed"
    exit 1
fi
read -r clock processors <"$room/time"
echo "rt ci: $(seconds "$clock") s by the clock, $(seconds "$processors") s of processors"
passed=$(sed -n 's/^\([0-9]*\) passed, 0 failed$/\1/p' "$room/log" | tail -n 1)
run_side_by_side "$(nproc)" "${SCRIPTS[@]}"
echo "the gate took $SECONDS s by the clock, and $((processors / 60000)) minutes of processors"
echo "$passed passed, $failed failed"
[ "$failed" -eq 0 ]
