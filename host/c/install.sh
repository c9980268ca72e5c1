#!/bin/sh
# install.sh LIBRARY PREFIX: puts the header, the library and mpt.pc where pkg-config finds them under PREFIX. DESTDIR goes before it.
set -eu
if [ $# -ne 2 ]; then
    echo "usage: c/install.sh LIBRARY PREFIX (as in c/install.sh /path/to/libmpt-x86_64.a /usr/local)" >&2
    exit 2
fi
case $2 in
/*) ;;
*) echo "c/install.sh: PREFIX $2 must be a full path, since mpt.pc names it" >&2; exit 2 ;;
esac
host=$(cd "$(dirname "$0")/.." && pwd)
to=${DESTDIR:-}$2
number() { sed -n "s/^#define MPT_VERSION_$1 //p" "$host/include/mpt.h"; }
mkdir -p "$to/include" "$to/lib/pkgconfig"
cp "$host/include/mpt.h" "$host/include/mpt_answer.h" "$to/include/"
cp "$1" "$to/lib/libmpt.a"
sed -e '/^#/d' -e "s|@prefix@|$2|" -e "s|@version@|$(number MAJOR).$(number MINOR)|" "$host/mpt.pc.in" >"$to/lib/pkgconfig/mpt.pc"
