#!/usr/bin/env bash
# Hostile use of the proved program: bench/hostile.py says what is tried. It needs a C compiler and Python 3.11.
set -eu
here=$(cd "$(dirname "$0")" && pwd)
libraries=$(mktemp -d)
trap 'rm -rf "$libraries"' EXIT
for library in serve refuse; do
    "${CC:-cc}" -shared -fPIC -O1 -Wall -o "$libraries/$library.so" "$here/$library.c" -ldl
done
python3 "$here/hostile.py" --libraries "$libraries" "$@"
