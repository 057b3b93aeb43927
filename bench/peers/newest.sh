#!/usr/bin/env bash
# Unpacks the newest libfyaml and rapidyaml that Debian has into a folder, and builds the peers' drivers over them.
# Nothing of the machine is installed or changed: apt keeps its lists in the folder, and the drivers run by the C
# library that was unpacked beside them.
#
#     bench/peers/newest.sh FOLDER [SUITE]
#
# Leaves FOLDER/libfyaml and FOLDER/rapidyaml, and FOLDER/versions, a line for each. The suite is `unstable` if none is
# given. It needs apt, dpkg-deb, cc and c++, and a mirror of Debian among the machine's sources.
set -eu
folder=$(mkdir -p "$1" && cd "$1" && pwd)
suite=${2:-unstable}
peers=$(cd "$(dirname "${BASH_SOURCE[0]}")" && pwd)
lists=$folder/apt
tree=$folder/unpacked
mkdir -p "$lists/lists/partial" "$lists/archives/partial" "$tree" "$folder/packages"
: >"$lists/status"

# apt over the suite alone, with lists of its own.
apt_of_suite() {
    "$@" -qq -o Dir::Etc::sourcelist="$lists/sources.list" -o Dir::Etc::sourceparts=/dev/null \
        -o Dir::State="$lists" -o Dir::State::lists="$lists/lists" -o Dir::State::status="$lists/status" \
        -o Dir::Cache="$lists" -o Dir::Cache::archives="$lists/archives" -o Debug::NoLocking=1
}

mirror=$(apt-cache policy | grep -oE 'https?://[^ ]+/debian' | head -n 1)
echo "deb [signed-by=/usr/share/keyrings/debian-archive-keyring.gpg] $mirror $suite main" >"$lists/sources.list"
apt_of_suite apt-get update
(
    cd "$folder/packages"
    apt_of_suite apt-get download libfyaml-dev libfyaml0 libryml-dev libryml0.16 libc4core-dev libc4core0.6 debugbreak \
        libc6 libstdc++6 libgcc-s1
    for package in *.deb; do dpkg-deb -x "$package" "$tree"; done
    for package in libfyaml0_*.deb libryml0*_*.deb; do dpkg-deb -f "$package" Package Version | tr '\n' ' '; echo; done
) >"$folder/versions"

libraries=$tree/usr/lib/x86_64-linux-gnu
loader=$(find "$tree" -name 'ld-linux-x86-64.so.2' | head -n 1)
run_by_loader=("-Wl,--dynamic-linker=$loader" "-Wl,-rpath,$libraries" "-Wl,--allow-shlib-undefined")
cc -O2 -I "$tree/usr/include" -o "$folder/libfyaml" "$peers/libfyaml.c" -L "$libraries" -lfyaml "${run_by_loader[@]}"
c++ -O2 -std=c++17 -DC4CORE_NO_FAST_FLOAT -I "$tree/usr/include" -o "$folder/rapidyaml" "$peers/rapidyaml.cpp" \
    -L "$libraries" -lryml -lc4core "${run_by_loader[@]}"
