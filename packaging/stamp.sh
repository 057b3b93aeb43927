# shellcheck shell=dash disable=SC2034,SC2154
# What a stamp says, and the start of ./confstore that finds nothing changed since. It is sourced by ./confstore in each
# shell of a Unix system, and by packaging/program.sh, with `top` set to the repository's folder, a path without links.
#
# The first line of a stamp names the program that was made of these sources: `built`, the one that ./prove built, or
# the folder of the released one. The second line has the crates that it is made of. What follows are the lines of
# `state`.

# A line for each of the files, and of those in the folders, that changes whenever the file does. It ends the shell that
# it is called in, which is one of a pipe or a substitution.
state_of() { # FILE|FOLDER..
    cd "$top" && LC_ALL=C exec find -L "$@" -type f -printf '%i %C@ %p\n' 2>/dev/null
}

# The state of each file that the choice of the program stands on, where it is made of these crates, and of the FILES.
state() { # CRATES [FILE..]
    local crate folders=''
    for crate in $1; do folders="$folders crates/$crate/src crates/$crate/specs"; done
    shift
    # shellcheck disable=SC2086  # no name of a crate has a space
    state_of crates.txt release/manifest out/proved crates/confstore/out/confstore $folders "$@"
}

# Sets `program` to the one that the stamp in out/ names, and opens it as 9, if it is trusted and nothing has changed
# that it stands on. Its only programs are `find`, `cmp` and `stat`, which run side by side: a start costs what they do.
# What it can't tell that fast it leaves to `find_program`, as who is refused, and why: it returns 1, and says nothing.
take_own_stamp() {
    local stamp="$top/out/stamp" name crates part look owners
    [ -O "$top" ] && [ ! -L "$top/out" ] && [ ! -L "$stamp" ] && [ -f "$stamp" ] && [ -r "$stamp" ] || return 1
    { IFS= read -r name && IFS= read -r crates; } <"$stamp" || return 1
    case $name in
        built) set -- crates crates/confstore crates/confstore/out crates/confstore/out/confstore ;;
        released-*[!0-9a-f]*) return 1 ;;
        released-*) set -- out "out/$name" "out/$name/bin" "out/$name/bin/confstore" ;;
        *) return 1 ;;
    esac
    for part; do [ ! -L "$top/$part" ] || return 1; done
    program=$top/$part
    [ -x "$program" ] && [ ! -e /dev/fd/9 ] && { command exec 9<"$program"; } 2>/dev/null || return 1
    { printf '%s\n%s\n' "$name" "$crates"; state "$crates" "$part"; } | cmp -s - "$stamp" &
    look=$!
    owners=$(LC_ALL=C exec stat --printf '%u %g %a ' -- "$top" "$top/out" "$stamp" \
        "$top/$1" "$top/$2" "$top/$3" "$top/$4" 2>/dev/null)
    # shellcheck disable=SC2086  # these are numbers
    wait "$look" && are_own $owners && [ "$program" -ef /dev/fd/9 ] && return
    exec 9<&-
    return 1
}

# Whether nobody else can change what is at seven places, of which these are the owners, the groups and the modes. The
# first one is the checkout's folder: what its group may do there, it may do below.
are_own() { # OWNER GROUP MODE ..
    local owner="$1" group="$2" shares=false
    [ $# -eq 21 ] || return 1
    case $3 in *[2367]) return 1 ;; *[2367]?) shares=true ;; esac
    while shift 3 && [ $# -gt 0 ]; do
        [ "$1" -eq 0 ] || [ "$1" -eq "$owner" ] || return 1
        case $3 in
            *[2367]) return 1 ;;
            *[2367]?) $shares && [ "$2" -eq "$group" ] || return 1 ;;
        esac
    done
}
