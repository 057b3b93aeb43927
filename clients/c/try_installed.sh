#!/usr/bin/env bash
# Tries the library where it is installed: what it exports, its pkg-config file, and the examples of its man page.
#
#     clients/c/try_installed.sh PREFIX LIBDIR [PROGRAM]
#
# PREFIX and LIBDIR are where the files are now, which may be another place than the one they were installed for. With a
# PROGRAM the examples are run on a store. The compilers are gcc and clang, as far as they are there. The last line is
# 'N passed, M failed', and the status is 0 if M is 0.
set -u
prefix=${1:?where the library is installed}
libdir=${2:?the folder of the libraries}
program=${3:-}
header=$prefix/include/confstore.h
folder=$(mktemp -d) || exit 1
trap 'rm -rf "$folder"' EXIT
warnings=(-std=c11 -Wall -Wextra -Wpedantic -Wconversion -Wshadow -Werror)
passed=0
failed=0

try() { # NAME COMMAND..
    local name=$1 said
    shift
    if said=$("$@" 2>&1); then
        passed=$((passed + 1))
    else
        echo "WRONG $name: $said"
        failed=$((failed + 1))
    fi
}

# What the header declares: its functions, and its statuses and kinds of answers.
declared() { # PATTERN
    cc -E -P "$header" | grep -o "\b$1" | LC_ALL=C sort -u
}
functions() { declared 'confstore_[a-z_]*(' | tr -d '('; }
enumerators() { declared 'CONFSTORE_[A-Z_]*'; }
# The exported names, without their versions; one that has none is marked.
exported() {
    nm -D --defined-only "$libdir/libconfstore.so" | awk '!($2 == "A" && $3 ~ /^CONFSTORE_/) { print $3 }' |
        sed 's/@@CONFSTORE_[0-9.]*$//; t; s/$/ has no version/' | LC_ALL=C sort
}
defined() { nm -g --defined-only "$libdir/libconfstore.a" | awk 'NF == 3 { print $3 }' | LC_ALL=C sort; }
exports_header() { [ "$(functions | wc -l)" -gt 9 ] && diff <(functions) <(exported); }
defines_header() { diff <(functions) <(defined); }

names() { # FIELD OF: such a line of the file's dynamic section
    objdump -p "$2" | awk -v field="$1" '$1 == field { print $2 }'
}
has_soname() {
    local soname
    soname=$(names SONAME "$libdir/libconfstore.so") && [[ $soname =~ ^libconfstore\.so\.[0-9]+$ ]] &&
        [ "$(readlink -f "$libdir/$soname")" = "$(readlink -f "$libdir/libconfstore.so")" ]
}
needs_only_c() { diff <(names NEEDED "$libdir/libconfstore.so") <(echo libc.so.6); }

flags() { # WORD..
    PKG_CONFIG_LIBDIR=$libdir/pkgconfig pkg-config --define-variable=prefix="$prefix" "$@" confstore
}
has_version() {
    local version
    version=$(sed -n 's/^#define CONFSTORE_VERSION "\(.*\)"$/\1/p' "$header")
    [ -n "$version" ] && [ -e "$libdir/libconfstore.so.$version" ] && diff <(flags --modversion) <(echo "$version")
}

page() { zcat -f "$prefix"/share/man/man3/confstore.3*; }
# Each function is on the page as a call and in the synopsis, and each status and kind has its paragraph.
page_has_all() {
    local word status=0
    for word in $(functions); do
        [ "$(page | grep -c "\b$word \?(")" -ge 2 ] || { echo "$word"; status=1; }
    done
    for word in $(enumerators); do
        page | grep -qx "\.B $word" || { echo "$word"; status=1; }
    done
    return $status
}
# The examples of the page: the first one sets a value, and the second one watches.
example() { # NUMBER
    page | sed '1,/^\.SH EXAMPLES$/d' |
        awk -v wanted="$1" '/^\.EE$/ { within = 0 } within; /^\.EX$/ { within = ++number == wanted }' |
        sed 's/\\-/-/g; s/\\e/\\/g'
}
example 1 >"$folder/set.c"
example 2 >"$folder/watch.c"

compile() { # COMPILER EXAMPLE OUTPUT [-static]
    local compiler=$1 example=$2 output=$3 words
    shift 3
    # The words of pkg-config are flags, which have no spaces.
    read -ra words < <(flags --cflags --libs "${@/#-static/--static}") && [ ${#words[@]} -ge 3 ] &&
        "$compiler" "${warnings[@]}" "$@" -o "$folder/$output" "$folder/$example.c" "${words[@]}"
}
needs_library() { names NEEDED "$folder/$1" | grep -qx "$(names SONAME "$libdir/libconfstore.so")"; }
needs_nothing() { [ -z "$(names NEEDED "$folder/$1")" ]; }

run_on() { # OUTPUT FOLDER
    mkdir -p "$2" && CONFSTORE=$program LD_LIBRARY_PATH=$libdir "$folder/$1" "$2"
}
works_set() { # OUTPUT
    diff <(run_on "$1" "$folder/$1.store") <(echo 81) &&
        diff <("$program" get --raw "$folder/$1.store" web /port) <(echo 81)
}
works_watch() { # OUTPUT: a batch, and what is there when it begins, after a checkpoint
    diff <(run_on "$1" "$folder/$1.store") <(echo "1 web web/port") &&
        "$program" checkpoint "$folder/$1.store" &&
        diff <(run_on "$1" "$folder/$1.store") <(printf '%s\n' "no change 1" "2 web web/port")
}
says_status() { # OUTPUT: the status of a folder that isn't there
    diff <(CONFSTORE=$program LD_LIBRARY_PATH=$libdir "$folder/$1" "$folder/none" 2>&1) \
        <(echo "$folder/none: CONFSTORE_NO_FOLDER")
}

try "what the shared library exports" exports_header
try "what the static library defines" defines_header
try "the soname" has_soname
try "what the shared library needs" needs_only_c
try "the version" has_version
try "what the man page has" page_has_all
for compiler in gcc clang; do
    command -v "$compiler" >/dev/null || continue
    for name in set watch; do
        output=$compiler-$name
        try "$output, shared" compile "$compiler" "$name" "$output-shared"
        try "$output, shared: needs the library" needs_library "$output-shared"
        try "$output, static" compile "$compiler" "$name" "$output-static" -static
        try "$output, static: needs no library" needs_nothing "$output-static"
        [ -n "$program" ] || continue
        try "$output, shared: runs" "works_$name" "$output-shared"
        try "$output, static: runs" "works_$name" "$output-static"
    done
    [ -z "$program" ] || try "$compiler: says a status" says_status "$compiler-set-shared"
done
[ -n "$program" ] || echo "left out: no program was given to run the examples with"
echo "$passed passed, $failed failed"
[ "$failed" -eq 0 ]
