#!/bin/sh
# Programs that mix up what mpt.h keeps apart must not compile: each is refused at its own line, for its own reason, by every compiler
# at hand, in C and in C++. The right one compiles.
set -eu
here=$(cd "$(dirname "$0")" && pwd)
folder=$(mktemp -d)
trap 'rm -rf "$folder"' EXIT
export LC_ALL=C

# number, what is wrong, and what a compiler says of it
versions() {
    cat <<'.'
1:a page number for an address:argument 7 of 'mpt_edit'|'mpt_page'.* to .*'mpt_address'
2:an address for a page number:argument 2 of 'mpt_edit'|'mpt_address'.* to .*'mpt_page'
3:both swapped in a lookup:argument 2 of 'mpt_lookup'|'mpt_address'.* to .*'mpt_page'
4:slot and SDID swapped:argument 6 of 'mpt_open'|'mpt_sdid'.* to .*'mpt_slot'
5:an address for an SDID:argument 7 of 'mpt_open'|'mpt_address'.* to .*'mpt_sdid'
6:a number for an SDID:argument 7 of 'mpt_open'|'int'.* to .*'mpt_sdid'
7:a number for an address:argument 8 of 'mpt_lookup'|'int'.* to .*'mpt_address'
8:a number for a page number:argument 2 of 'mpt_close'|'int'.* to .*'mpt_page'
9:mpt_refused of a lookup:'(struct )?mpt_looked'.* (is )?not compatible with any|call to 'mpt_refused(\(mpt_looked&\))?'
10:a lookup taken for a truth value:wrong type argument to unary exclamation|'mpt_looked'.* to unary|'operator!' .*'mpt_looked'
11:mpt_allowed of an edit:argument 1 of 'mpt_allowed'|'mpt_edited'.* to .*'mpt_looked'
12:mpt_stores of an open:argument 1 of 'mpt_stores'|'mpt_opened'.* to .*'mpt_edited'
13:mpt_fence of an open:'(struct )?mpt_opened'.* (is )?not compatible with any|call to 'mpt_fence(\(mpt_opened&\))?'
14:mpt_refused of a check:'(struct )?mpt_checked'.* (is )?not compatible with any|call to 'mpt_refused(\(mpt_checked&\))?'
15:an answer written to a slot, refused or not:'uint64_t'.* from .*'mpt_opened'|'mpt_opened'.* to 'uint64_t'
16:a close's answer for an open's:argument 3 of 'mpt_write_opened'|'mpt_closed'.* to .*'mpt_opened'
17:an open's answer for a close's:argument 3 of 'mpt_write_closed'|'mpt_opened'.* to .*'mpt_closed'
18:an SDID for an address:'mpt_address'.* from .*'mpt_sdid'|'mpt_address'.* and 'mpt_sdid'|'mpt_sdid'.* to .*'mpt_address'
19:a lookup left lying:ignoring return value .*warn_unused_result
20:an open left lying:ignoring return value .*warn_unused_result
21:a close left lying:ignoring return value .*warn_unused_result
22:an edit left lying:ignoring return value .*warn_unused_result
23:a check left lying:ignoring return value .*warn_unused_result
24:a close's fence left lying:ignoring return value .*warn_unused_result
25:privilege and kind swapped:argument 6 of 'mpt_lookup'|'mpt_kind'.* to .*'mpt_privilege'
26:a number for a privilege:argument 6 of 'mpt_lookup'|'int'.* to .*'mpt_privilege'
27:a number for a kind:argument 7 of 'mpt_lookup'|'int'.* to .*'mpt_kind'
28:a permission for a kind:argument 7 of 'mpt_lookup'|'mpt_permission'.* to .*'mpt_kind'
29:register and privilege swapped:argument 5 of 'mpt_lookup'|'mpt_privilege'.* to .*'mpt_register'
30:a kind for a permission:argument 9 of 'mpt_edit'|'mpt_kind'.* to .*'mpt_permission'
31:a number for a permission:argument 9 of 'mpt_edit'|'int'.* to .*'mpt_permission'
32:permission and limit swapped:argument 9 of 'mpt_edit'|'int'.* to .*'mpt_permission'
33:length and permission swapped:argument 8 of 'mpt_edit'|'mpt_permission'.* to .*'uint64_t'
34:an edit's answer for an open's:argument 3 of 'mpt_write_opened'|'mpt_edited'.* to .*'mpt_opened'
35:an edit's answer for a close's:argument 3 of 'mpt_write_closed'|'mpt_edited'.* to .*'mpt_closed'
36:the words of a pointer:'uint64_t ?\* ?const ?\*'.* not compatible with any|call to 'mpt_words
37:the words of bytes:'uint8_t ?\(\*\)\[8192\]'.* not compatible with any|call to 'mpt_words
38:bytes for words in an edit:mpt_edit.* accessing 65536 bytes|count is of words
39:bytes for words in a lookup:mpt_lookup.* reading 65536 bytes|count is of words
40:an open written to its slot, refused or not:ignoring return value .*warn_unused_result
41:a lookup by slot left lying:ignoring return value .*warn_unused_result
42:what a slot holds, empty or not, for a register:argument 5 of 'mpt_lookup'|'uint64_t'.* to .*'mpt_register'
43:count and register swapped:argument 4 of 'mpt_lookup'|'mpt_register'.* to .*'size_t'
44:a slot's number for a register:argument 5 of 'mpt_lookup'|'mpt_slot'.* to .*'mpt_register'
45:a register for a slot's number:argument 6 of 'mpt_lookup_slot'|'mpt_register'.* to .*'mpt_slot'
46:bytes for words in a lookup by slot:mpt_lookup_slot.* reading 65536 bytes|count is of words
47:PAW and slot swapped:argument 1 of 'mpt_close'|'mpt_slot'.* to .*'uint64_t'
48:a number for a slot:argument 6 of 'mpt_open'|'int'.* to .*'mpt_slot'
49:slot and limit swapped:argument 6 of 'mpt_edit'|'int'.* to .*'mpt_slot'
50:an SDID for a slot after an open:argument 2 of 'mpt_write_opened'|'mpt_sdid'.* to .*'mpt_slot'
51:a number for a slot after a close:argument 2 of 'mpt_write_closed'|'int'.* to .*'mpt_slot'
52:the register of an open written to a slot, refused or not:'uint64_t'.* from .*'mpt_register'|'mpt_register'.* to 'uint64_t'
53:mpt_cut of an open:argument 1 of 'mpt_cut'|'mpt_opened'.* to .*'mpt_edited'
54:words and slots swapped in an edit:mpt_edit.* accessing 8192 bytes|count is of words
55:a number for a strength:argument 6 of 'mpt_apart'|'int'.* to .*'mpt_strength'
56:a permission for a strength:argument 6 of 'mpt_apart'|'mpt_permission'.* to .*'mpt_strength'
57:a test of separation left lying:ignoring return value .*warn_unused_result
58:mpt_refused of a test of separation:'(struct )?mpt_tested'.* (is )?not compatible with any|call to 'mpt_refused(\(mpt_tested&\))?'
59:mpt_is_apart of a check:argument 1 of 'mpt_is_apart'|'mpt_checked'.* to .*'mpt_tested'
60:mpt_is_sound of a test of separation:argument 1 of 'mpt_is_sound'|'mpt_tested'.* to .*'mpt_checked'
61:bytes for words in a test of separation:mpt_apart.* reading 65536 bytes|count is of words
62:a page number for an address after a test:'mpt_address'.* from .*'mpt_page'|'mpt_address'.* and 'mpt_page'|'mpt_page'.* to .*'mpt_address'
.
}

# compile NUMBER: what the compiler says goes to a file; its status
compile() {
    # shellcheck disable=SC2086 # the compiler and its switches
    $compiler -Wall -Wextra -pedantic -Werror -I "$here/../include" -DWRONG="$1" -c "$here/wrong.c" -o "$folder/wrong.o" >"$folder/said" 2>&1
}

# refused NUMBER WHAT REASON
refused() {
    if compile "$1"; then
        echo "wrong.c, $1: $2: $compiler takes it" >&2
        exit 1
    fi
    line=$(($(grep -n "WRONG == $1\$" "$here/wrong.c" | cut -d: -f1) + 1))
    if ! grep -q "wrong\.c:$line:" "$folder/said" || ! grep -Eq "$3" "$folder/said"; then
        echo "wrong.c, $1: $2: $compiler refuses it, but not at line $line for this:" >&2
        grep error "$folder/said" | head -n 3 >&2
        exit 1
    fi
}

count=$(versions | wc -l)
by=
for compiler in "${CC:-cc} -std=c11" "clang -std=c11" "c++ -x c++ -std=c++11" "clang++ -x c++ -std=c++11"; do
    command -v "${compiler%% *}" >/dev/null 2>&1 || continue
    if ! compile 0; then
        echo "wrong.c: $compiler refuses the right version:" >&2
        head -n 3 "$folder/said" >&2
        exit 1
    fi
    versions >"$folder/versions"
    while IFS=: read -r number what reason; do refused "$number" "$what" "$reason"; done <"$folder/versions"
    by="$by${by:+, }${compiler%% *}"
done
echo "C interface: $count programs that mix up its kinds are refused, each for that, by $by"
