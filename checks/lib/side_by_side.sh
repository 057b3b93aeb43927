# shellcheck shell=bash
# Runs scripts side by side, and keeps apart what each prints. It is sourced, with `top` set to the repository's folder
# and `room` to one for what they print. It counts in `passed` and `failed`, and in `processors` their milliseconds of
# processors.
passed=0
failed=0
processors=0
declare -A running=()

# Runs a command, and writes to FILE how long it took: milliseconds by the clock, and of processors.
timed() { # FILE COMMAND..
    local file=$1 status real user system TIMEFORMAT='%3R %3U %3S'
    shift
    { time ("$@" 2>&3); } 3>&2 2>"$file"
    status=$?
    read -r real user system < <(tr -d '.,' <"$file")
    echo "$((10#$real)) $((10#$user + 10#$system))" >"$file"
    return "$status"
}

# Milliseconds as seconds.
seconds() { printf '%d.%d' "$(($1 / 1000))" "$(($1 % 1000 / 100))"; }

# Runs a script with words, or the Python tests of a folder `tests`.
run_script() { # SCRIPT WORD..
    local script=$1
    shift
    case $script in
        */tests) cd "$top/${script%/tests}" && python3 -m unittest ;;
        *.py) python3 "$top/$script" "$@" ;;
        *) "$top/$script" "$@" ;;
    esac
}

start_script() { # SCRIPT WORD..
    local called="$*"
    local printed=$room/${called//[\/ ]/_}
    timed "$printed.time" run_script "$@" </dev/null >"$printed" 2>&1 &
    running[$!]=$called
}

# Waits until a script ends, and says how it went.
take_script() {
    local ended status script printed real used
    wait -n -p ended "${!running[@]}"
    status=$?
    script=${running[$ended]}
    printed=$room/${script//[\/ ]/_}
    unset "running[$ended]"
    read -r real used <"$printed.time" || { real=0 used=0 && status=1; }
    processors=$((processors + used))
    if [ "$status" -eq 0 ]; then
        passed=$((passed + 1))
    else
        failed=$((failed + 1))
        cat "$printed"
        script="FAILED: $script"
    fi
    echo "$script: $(seconds "$real") s by the clock, $(seconds "$used") s of processors: $(tail -n 1 "$printed")"
}

# The first of the commands that is not installed, if one isn't.
lacking() { # COMMAND..
    local command
    for command; do command -v "$command" >/dev/null || { echo "$command"; return; }; done
}

# Runs scripts, COUNT at one time, in the order in which they stand. A LINE is a script's path from the top, and the
# commands that it needs: where one isn't installed, the script is left out. The words behind `--` are given to it.
run_side_by_side() { # COUNT LINE..
    local count=$1 line script needs lacks words
    shift
    for line; do
        read -r script needs <<<"${line%% -- *}"
        words=()
        [[ $line != *" -- "* ]] || read -ra words <<<"${line#* -- }"
        # shellcheck disable=SC2086 # The commands are words.
        lacks=$(lacking $needs)
        if [ -n "$lacks" ]; then
            echo "$script: left out, as $lacks is not installed"
            continue
        fi
        [ "${#running[@]}" -lt "$count" ] || take_script
        start_script "$script" "${words[@]}"
    done
    while [ "${#running[@]}" -gt 0 ]; do take_script; done
}
