# shellcheck shell=bash disable=SC2034,SC2154
# What ./confstore, ./prove, the gate and packaging/release.sh share: which sources the program is made of, and which
# program is made of these sources. It is sourced, with `top` set to the repository's folder.
#
# The sources that the program is made of are, of the program's crate and of all below it, the lines in crates.txt, the
# code in src/ and the definitions in specs/ that its contracts speak of. They are compared by name and content. The
# proofs in proofs/ change neither the program nor what is claimed of it: release/manifest has a checksum of theirs for
# the gate.
#
# A comparison is remembered in a stamp (stamp.sh): the number on the disk and the time of the last change (ctime) of
# each file that it stands on. Nobody can set this time, so a file whose line is the same has the same content. No stamp
# is written within two seconds of such a change, as a later one might then have the same time.
#
# Who runs these scripts trusts root, themselves and the owner of the checkout, whose scripts they are. A program, a
# stamp, a record or a manifest of anybody else is refused, and so is one that anybody else can change or replace. What
# was there and trusted stays so: nobody else can then change a name on the way to it. So each path is one without links
# before it is looked at.

built=$top/crates/confstore/out/confstore
record=$top/out/proved
manifest=$top/release/manifest
program=  # the one to be run
opened=   # the number of the open file that was looked at as the program
why=      # why no program is of the sources here
instead=  # what may be run in its place

# shellcheck source=packaging/stamp.sh
. "$top/packaging/stamp.sh" || return

say() { echo "confstore: $*" >&2; }

# Where the released program is unpacked and the stamp is kept: for its owner out/ of the checkout, and else a folder of
# the user's own, if there is one.
choose_kept() {
    local cache=${XDG_CACHE_HOME:-}
    kept=$top/out
    [ -O "$top" ] && { [ -w "$kept" ] || { [ ! -e "$kept" ] && [ -w "$top" ]; }; } && return
    [[ $cache == /* ]] || cache=${HOME:+$HOME/.cache}
    [[ $cache != /* ]] || kept=$cache/confstore
}

# Sets REPLY to the path without links.
without_links() { # PATH
    local part=$1
    REPLY=$1
    while [ -n "$part" ]; do
        [ ! -L "$part" ] || { REPLY=$(realpath -m -- "$1"); return; }
        part=${part%/*}
    done
}

# Makes the paths of all places ones without links.
find_places() {
    local name
    for name in kept manifest record built; do
        without_links "${!name}"
        printf -v "$name" %s "$REPLY"
    done
}

# Adds to `places` each folder on the way to the path, from the outside, and the path: from the checkout's folder on, if
# it is there, or from the root.
add_places() { # PATH
    local part=$1 from='' way=()
    [[ $part != "$top"/* ]] || from=$top
    while [ -n "$part" ] && [ "$part" != "$from" ]; do
        way=("$part" "${way[@]}")
        part=${part%/*}
    done
    [ -n "$from" ] || way=(/ "${way[@]}")
    places+=("${way[@]}")
}

# Whether nobody else can change what is at a place. In a folder with the sticky bit nobody can rename or remove what is
# another's. What the checkout's group may do in the checkout's folder, it may do below.
is_trusted_place() { # OWNER GROUP MODE PATH
    local writers=$((0$3 & 022))
    if [ "$1" -ne 0 ] && [ "$1" -ne "$EUID" ] && [ "$1" -ne "$top_owner" ]; then
        say "$4 is refused: it belongs to $(stat -c %U -- "$4"), and not to you, to root or to the owner of $top;" \
            "$(remedy_for "$4" "remove it")"
        return 4
    fi
    if [[ $4 == "$top" || $4 == "$top"/* ]] && [ "$2" -eq "$top_group" ]; then
        writers=$((writers & ~(top_mode & 020)))
    fi
    if [ "$writers" -ne 0 ] && ! { [ -d "$4" ] && [ -k "$4" ]; }; then
        say "$4 is refused: others may write there; $(remedy_for "$4" "chmod go-w $4")"
        return 4
    fi
}

remedy_for() { # PATH REMEDY
    local instead_of=", or set XDG_CACHE_HOME to a folder of your own"
    [[ $1 != "$top" && $1 != "$top"/* ]] || instead_of=
    echo "$2$instead_of"
}

# Whether nobody else can change what is at these paths, which were there before this call. If not, says why and
# returns 4.
trust() { # PATH..
    local places=("$top") seen=0 top_owner='' top_group=0 top_mode=0 owner group mode path
    for path; do
        without_links "$path"
        add_places "$REPLY"
    done
    while read -r -d '' owner group mode path; do
        seen=$((seen + 1))
        [ -n "$top_owner" ] || { top_owner=$owner top_group=$group top_mode=0$mode; }
        is_trusted_place "$owner" "$group" "$mode" "$path" || return
    done < <(stat --printf '%u %g %a %n\0' -- "${places[@]}" 2>/dev/null)
    [ "$seen" -eq "${#places[@]}" ] || { say "$* changed while it was looked at: run this again"; return 4; }
}

# Opens the file that is looked at as the program, which is trusted. Each look is then at this file.
open_program() { # PATH
    program=$1
    [ -z "$opened" ] || exec {opened}<&-
    opened=
    [ -x "$program" ] && [ -r "$program" ] && exec {opened}<"$program"
}

sum_of_program() { sum_of "/dev/fd/$opened"; }

# Whether the program's name still leads to the file that was looked at.
is_in_place() { [ "$program" -ef "/dev/fd/$opened" ]; }

state_of_sources() {
    cd "$top" && state_of crates.txt crates/*/src crates/*/specs
}

# The lines of crates.txt of the program's crate and of all below it, by name.
product_lines() {
    awk -F: '
        /^[a-z]/ { split($1, name, " "); below[name[1]] = $2; line[name[1]] = $0 }
        END {
            wanted["confstore"]; more = 1
            while (more) {
                more = 0
                for (crate in wanted) {
                    count = split(below[crate], names, " ")
                    for (i = 1; i <= count; i++)
                        if ((names[i] in below) && !(names[i] in wanted)) { wanted[names[i]]; more = 1 }
                }
            }
            for (crate in wanted) print line[crate]
        }' "$top/crates.txt" | LC_ALL=C sort
}

# The names of these crates.
product_crates() { product_lines | sed 's/[ :].*//'; }

sum_of() { # FILE: its SHA-256
    local line
    line=$(sha256sum <"$1") && echo "${line%% *}"
}

# The SHA-256 of the product's lines of crates.txt, and of the list of SHA-256 and name, by name, of the files of its
# crates in the folders KIND.
sum_of_sources() ( # KIND..
    set -o pipefail
    cd "$top" && lines=$(product_lines) || exit
    folders=()
    for crate in $(product_crates); do
        for kind in "$@"; do [ ! -d "crates/$crate/$kind" ] || folders+=("crates/$crate/$kind"); done
    done
    {
        printf '%s\n' "$lines"
        find -L "${folders[@]}" -type f \( -name '*.rt' -o -name '*.antt' \) -print0 |
            LC_ALL=C sort -z | xargs -0 sha256sum --
    } | sum_of /dev/stdin
)

field() { # FILE NAME: the value of this line of a manifest or a record
    sed -n "s/^$2: \"\{0,1\}\([^\"]*\)\"\{0,1\}\$/\1/p" "$1"
}

# Whether the program that stands here was proved and built of the sources with this checksum.
is_built_of() { # SUM
    [ -r "$record" ] && open_program "$built" && [ "$(field "$record" sources_sha256)" = "$1" ] &&
        [ "$(field "$record" program_sha256)" = "$(sum_of_program)" ]
}

# Notes that the program that stands here was proved and built of the sources with this checksum.
record_built() { # SUM
    local toolchain new
    toolchain=$(rt version) && (umask 022 && mkdir -p "$top/out") && new=$(mktemp "$record.XXXXXX") || return
    printf 'sources_sha256: %s\nprogram_sha256: %s\ntoolchain: %s\n' "$1" "$(sum_of "$built")" "$toolchain" >"$new" &&
        chmod 644 "$new" && mv -f "$new" "$record"
}

# Looks what checksum the released program has to have, and where it is to be.
read_manifest() {
    local lines=() line
    [ ! -r "$manifest" ] || mapfile -t lines <"$manifest"
    for line in "${lines[@]}"; do
        case $line in
            "archive: "*) archive=$top/release/${line#*: } ;;
            "program_sha256: "*) wanted=${line#*: } ;;
        esac
    done
    wanted=${wanted//\"/}
    [[ $wanted =~ ^[0-9a-f]{64}$ ]] || wanted=
    folder=$kept/released-${wanted:0:16}
    released=$folder/bin/confstore
}

# Unpacks the released program, once, and looks whether it is the one of the manifest. Sets `program`, or says what is
# wrong and returns 4.
take_released() {
    local found
    if [ -z "$archive" ] || [ -z "$wanted" ]; then
        say "$manifest has no archive or no program_sha256: git checkout -- release"
        return 4
    fi
    if [ ! -e "$released" ]; then unpack_released || return 4; fi
    trust "$released" || return 4
    open_program "$released" && found=$(sum_of_program) || return 4
    if [ "$found" != "$wanted" ]; then
        say "$released is refused: its SHA-256 is $found, and that of release/manifest is $wanted;" \
            "remove $folder, and run this again"
        return 4
    fi
}

# Whether the archive is the one of the manifest. If not, says so.
is_archive_whole() {
    local found noted
    noted=$(field "$manifest" archive_sha256)
    [ -r "$archive" ] || { say "$archive is missing: git checkout -- release"; return 4; }
    found=$(sum_of "$archive") || return 4
    [ "$found" != "$noted" ] || return 0
    say "$archive is refused: its SHA-256 is $found, and that of release/manifest is $noted;" \
        "git checkout -- release brings back what was released, and ./prove proves and builds the program here"
    return 4
}

# Unpacks the archive beside the folder and renames it, so that whoever starts at the same time finds the folder whole.
unpack_released() {
    local found room
    is_archive_whole || return
    command -v xz >/dev/null || { say "xz unpacks the released program, and is not installed"; return 4; }
    if ! (umask 022 && mkdir -p "$kept") || [ ! -w "$kept" ]; then
        say "$kept can't be written, where the released program is unpacked; tar -xf $archive unpacks it elsewhere"
        return 4
    fi
    trust "$kept" && room=$(mktemp -d "$kept/unpacking.XXXXXX") || return 4
    if ! (umask 022 && chmod 755 "$room" && tar -xJf "$archive" -C "$room" --strip-components=1 --no-same-owner); then
        rm -rf "$room"
        say "$archive could not be unpacked in $kept"
        return 4
    fi
    found=$(sum_of "$room/bin/confstore")
    if [ "$found" != "$wanted" ]; then
        rm -rf "$room"
        say "the program in $archive is refused: its SHA-256 is $found, and that of release/manifest is $wanted"
        return 4
    fi
    if ! "$room/bin/confstore" --version >/dev/null; then
        rm -rf "$room"
        say "the released program doesn't run here: the lines above say why; ./prove proves and builds one here"
        return 4
    fi
    if mv -T "$room" "$folder" 2>/dev/null; then
        say "unpacked the released program $(field "$manifest" version), which was proved of these sources" \
            "(release/README.md); ./prove proves and builds it here"
    else
        rm -rf "$room"
    fi
}

# Sets `program` to the one that the stamp names, if no file that it stands on has changed. Returns 4, after a line that
# says why, if it is not trusted.
take_stamped() {
    local name crates place=
    [ -f "$kept/stamp" ] && [ -r "$kept/stamp" ] &&
        { IFS= read -r name && IFS= read -r crates; } <"$kept/stamp" || return 1
    case $name in
        built) place=$built ;;
        "${folder##*/}") place=$released ;;
    esac
    if [ ! -x "$place" ]; then
        trust "$kept/stamp" || return
        return 1
    fi
    trust "$kept/stamp" "$place" || return
    open_program "$place" &&
        { printf '%s\n%s\n' "$name" "$crates"; state "$crates" "${place#"$top"/}"; } | cmp -s - "$kept/stamp"
}

# Keeps a stamp for `program`, which is made of these crates and stands on these states, unless a file is too young.
# Nothing is said if it can't.
keep_stamp() { # CRATES STATES
    local new name=${folder##*/}
    [ "$program" != "$built" ] || name=built
    { [ -d "$kept" ] && trust "$kept"; } 2>/dev/null || return 0
    new=$(mktemp "$kept/stamp.XXXXXX" 2>/dev/null) || return 0
    if printf '%s\n' "$2" | awk -v now="$(stat -c %Z "$new")" '$2 + 2 > now { young = 1 } END { exit young }' &&
        chmod 644 "$new" && printf '%s\n%s\n%s\n' "$name" "$1" "$2" 2>/dev/null >"$new"; then
        mv -f "$new" "$kept/stamp"
    else
        rm -f "$new"
    fi
}

# Whether what is there of the places that the choice stands on is trusted.
trust_places() {
    local place there=()
    for place in "$kept" "$manifest" "$record" "$built"; do [ ! -e "$place" ] || there+=("$place"); done
    [ ${#there[@]} -eq 0 ] || trust "${there[@]}"
}

# Sets `program` to the one that is made of the sources here, and opens it: the one that was proved and built here, or
# the released one. Returns 1 if there is none, and sets `why` and `instead`; returns 4, after a line that says why, if
# it may not be run.
find_program() {
    local listed crates general own sum wanted='' archive='' folder released
    choose_kept
    find_places
    read_manifest
    take_stamped
    case $? in 0) return ;; 4) return 4 ;; esac
    trust_places || return
    listed=$(state_of crates.txt)
    crates=$(product_crates)
    crates=${crates//$'\n'/ }
    general=$(state "$crates")
    sum=$(sum_of_sources src specs) || { say "the sources can't be read: the lines above say why"; return 4; }
    if ! is_built_of "$sum"; then
        program=
        find_released "$sum" || return
    fi
    own=$(state_of "${program#"$top"/}")
    [[ $general != "$listed"* ]] || keep_stamp "$crates" "$general"$'\n'"$own"
}

# Runs the program that is made of the sources here with these words. If there is none that may be run, it says why, and
# ends this shell with the status 4.
run_program() { # [WORD..]
    find_program
    case $? in
        0) ;;
        1)
            say "$why: $top/prove proves and builds the program of these sources, which takes an hour on four" \
                "processors${instead:+; $instead}"
            exit 4
            ;;
        *) exit 4 ;;
    esac
    is_in_place || { say "$program is refused: it was exchanged while it was looked at; run this again"; exit 4; }
    # A file that would pass the limit of `ulimit -f` is then a write that fails, and not a signal that ends the program.
    trap '' XFSZ
    exec "$program" "$@" {opened}<&-
}

# Sets `program` to the released one, if it is made of the sources with this checksum. Returns as find_program does.
find_released() { # SUM
    if [ ! -f "$manifest" ]; then
        why="no program is released with these sources"
    elif [ "$(field "$manifest" sources_sha256)" != "$1" ]; then
        why="the sources here aren't those of the released program"
        instead="tar -xf $archive -C FOLDER unpacks the released one"
        if [ -x "$released" ]; then
            take_released || return
            program=
            instead="$released is the released one"
        fi
    elif [ "$(uname -sm)" != "Linux x86_64" ]; then
        why="the released program is for Linux on x86_64"
    else
        take_released
        return
    fi
    return 1
}
