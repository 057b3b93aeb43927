#!/usr/bin/env bash
# Makes the wheel of the Python package, confstore-VERSION-py3-none-any.whl.
#
#     packaging/wheel.sh [FOLDER]
#
# It is put into FOLDER, which is release/ if none is given; a wheel that stands there is replaced. Its path is printed.
# It needs Python alone: python/wheel_of_confstore.py, by which pip installs the sources too, writes it. The same
# sources make the same bytes.
set -euo pipefail
umask 022
top=$(cd "$(dirname "${BASH_SOURCE[0]}")/.." && pwd)
target=${1:-$top/release}
room=$(mktemp -d)
trap 'rm -rf "$room"' EXIT

name=$(PYTHONPATH=$top/python python3 -B -c '
import sys, wheel_of_confstore
print(wheel_of_confstore.build_wheel(sys.argv[1]))' "$room")
mkdir -p "$target"
rm -f "$target"/confstore-*.whl
install -m 644 "$room/$name" "$target/"
echo "$target/$name"
