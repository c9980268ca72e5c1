#!/bin/sh
# Structs of one field cross as their fields do. On this machine, calls with the structs of mpt.h reach callees with words in their place,
# and the other way round. For RISC-V's lp64d, clang makes the same code of both. With structs of two fields neither may be so.
set -eu
here=$(cd "$(dirname "$0")" && pwd)
top=$here/../..
folder=$(mktemp -d)
trap 'rm -rf "$folder"' EXIT
mkdir "$folder/plain" "$folder/two"
struct='^typedef struct mpt_[a-z]* { \(uint64_t [a-z]*;\) } \(mpt_[a-z]*\);'
sed -e "s/$struct/typedef uint64_t \2;/" -e '/^#include "mpt_answer.h"/d' "$here/../include/mpt.h" >"$folder/plain/mpt.h"
sed -e "s/$struct/typedef struct { \1 uint64_t more; } \2;/" -e '/^#include "mpt_answer.h"/d' "$here/../include/mpt.h" >"$folder/two/mpt.h"

one="-I $here/../include"
plain="-I $folder/plain -DPLAIN"
two="-I $folder/two -Wno-missing-field-initializers"

# compile SWITCH..
compile() {
    # shellcheck disable=SC2086 # the compiler and its switches
    $compiler -std=c11 -O1 -Wall -Wextra -Werror "$@" "$here/abi.c"
}

# works CALLS CALLEES: the one half with the other
works() {
    # shellcheck disable=SC2086
    compile -DCALLS $1 -c -o "$folder/calls.o"
    # shellcheck disable=SC2086
    compile $2 -c -o "$folder/callees.o"
    $compiler "$folder/calls.o" "$folder/callees.o" -o "$folder/abi"
    "$folder/abi" >/dev/null 2>&1
}

# code SWITCH..: the assembly of both halves, without what only names the file
code() {
    for half in -DCALLS -UCALLS; do compile -ffreestanding "$half" "$@" -S -o -; done | grep -v -e '\.file' -e '\.ident'
}

wrong() {
    echo "abi: $compiler: $1" >&2
    exit 1
}

compiler=${CC:-cc}
works "$plain" "$plain" || wrong "words do not even reach words"
works "$one" "$plain" || wrong "a call with structs does not reach a callee with words"
works "$plain" "$one" || wrong "a call with words does not reach a callee with structs"
! works "$two" "$plain" || wrong "structs of two fields make no difference, so nothing is shown"
machines=$(uname -m)

clang=$("$top/board/tools" 2>/dev/null || true)
compiler="${clang:+$clang/}clang --target=riscv64-unknown-elf -march=rv64gc -mabi=lp64d -mcmodel=medany -I $top/board/freestanding/include"
if $compiler -fsyntax-only -x c /dev/null >/dev/null 2>&1; then
    # shellcheck disable=SC2086
    { code $one >"$folder/one"; code $plain >"$folder/words"; code $two >"$folder/two.s"; }
    [ "$(grep -cE '^(call|mpt)_[a-z]+:' "$folder/one")" = 12 ] || wrong "not every call is there"
    cmp -s "$folder/one" "$folder/words" || wrong "other code for structs than for words"
    ! cmp -s "$folder/one" "$folder/two.s" || wrong "structs of two fields make no difference, so nothing is shown"
    machines="$machines, riscv64"
else
    echo "abi: no clang for RISC-V here: $machines alone"
fi
echo "C interface: structs of one field cross as words do ($machines)"
