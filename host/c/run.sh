#!/bin/sh
# The C interface by itself: test.c against mpt.h and a static library, in C and in C++, and as pkg-config finds them once installed; what
# must not compile (wrong.sh); what must cross in the same places (abi.sh).
set -eu
if [ $# -ne 1 ]; then
    echo "usage: c/run.sh LIBRARY (the proved static library, as in c/run.sh /path/to/libmpt-x86_64.a)" >&2
    exit 2
fi
here=$(cd "$(dirname "$0")" && pwd)
folder=$(mktemp -d)
trap 'rm -rf "$folder"' EXIT
warnings="-Wall -Wextra -pedantic -Werror"

# shellcheck disable=SC2086 # switches
"${CC:-cc}" -std=c11 $warnings -I "$here/../include" "$here/test.c" "$1" -o "$folder/test"
"$folder/test"

if command -v "${CXX:-c++}" >/dev/null 2>&1; then
    # shellcheck disable=SC2086
    "${CXX:-c++}" -x c++ -std=c++11 $warnings -I "$here/../include" "$here/test.c" -x none "$1" -o "$folder/test++"
    "$folder/test++" >/dev/null
fi

"$here/install.sh" "$1" "$folder/installed"
if command -v pkg-config >/dev/null 2>&1; then
    found() { PKG_CONFIG_PATH=$folder/installed/lib/pkgconfig pkg-config "$@" mpt; }
    # shellcheck disable=SC2046,SC2086
    "${CC:-cc}" -std=c11 $warnings $(found --cflags) "$here/test.c" $(found --libs) -o "$folder/found"
    "$folder/found" >/dev/null
    echo "C interface: installed, and found by pkg-config as mpt $(found --modversion)"
fi

"$here/wrong.sh"
"$here/abi.sh"
