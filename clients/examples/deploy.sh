#!/bin/sh
# Puts a configuration into a store, sets what is different on this host, and prints what came of it. The import and the
# edits are one batch: either all of them are on the disk, or nothing has changed.
#
#     deploy.sh FOLDER NAME FILE [POINTER VALUE]..
#
# For example, with CONFSTORE for the program if it isn't on the PATH:
#
#     deploy.sh /var/lib/app web web.yaml /host "$(hostname)" /port 8080
#
# The status is 0 if it is done, 1 if the store refused it (the word is on standard error), 2 for wrong words, and else
# that of confstore.
set -u
if [ $# -lt 3 ] || [ $((($# - 3) % 2)) -ne 0 ]; then
    echo "deploy.sh FOLDER NAME FILE [POINTER VALUE].." >&2
    exit 2
fi
folder=$1 name=$2 file=$3
shift 3
[ -r "$file" ] || { echo "deploy.sh: $file can't be read" >&2; exit 2; }

# A text in double quotes.
quoted() {
    printf '"'
    printf '%s.' "$1" | awk '
        BEGIN { RS = "\n" }
        { gsub(/[\\"]/, "\\\\&"); gsub(/\t/, "\\t"); text = text (NR > 1 ? "\\n" : "") $0 }
        END { printf "%s", substr(text, 1, length(text) - 1) }'
    printf '"'
}

# The command: a list of edits. The text of the file is indented by six spaces, so nothing in it can close the command.
# A byte order mark at its start is left out, since none may stand inside a command.
batch() {
    printf -- '---\nbatch:\n  - import: %s\n    text: |2+\n' "$(quoted "$name")"
    LC_ALL=C awk 'NR == 1 { sub(/^\357\273\277/, "") } { print "      " $0 }' "$file"
    while [ $# -gt 0 ]; do
        printf '  - set: %s\n    path: %s\n    value: %s\n' "$(quoted "$name")" "$(quoted "$1")" "$(quoted "$2")"
        shift 2
    done
    printf -- '...\n---\nexport: %s\n...\n' "$(quoted "$name")"
}

answers=$(batch "$@" | "${CONFSTORE:-confstore}" run "$folder") || exit $?
refused=$(printf '%s\n' "$answers" | sed -n 's/^refused: //p' | head -n 1)
case $refused in
'') ;;
BadCommand)
    echo "deploy.sh: refused: BadCommand, as of a file that is no text of YAML, or by a program without batches" >&2
    exit 1
    ;;
*)
    echo "deploy.sh: refused: $refused" >&2
    exit 1
    ;;
esac
# The text of the export is what is behind two spaces.
printf '%s\n' "$answers" | awk '
    is_text && /^\.\.\.$/ { exit }
    is_text { print substr($0, 3) }
    /^text: \|/ { is_text = 1 }'
