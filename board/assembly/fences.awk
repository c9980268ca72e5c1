# fences.awk: checks the RISC-V assembly that becomes the library. In it
#   - every store is to the stack, or it is an sd, in a function named in `may`, with a `fence rw, w` on every way that leads to it from
#     the start of the function or from the last such store. These are the stores to the table;
#   - memset, memcpy and memmove are the only functions called, and what they write to is the stack;
#   - there is no instruction that this file doesn't know: so none that stores in another way, as vector and atomic instructions do.
# To the stack means: the address is the stack pointer, or was made from it in the same function, on every way to the store, by moving it,
# by adding or subtracting what was not made from it, or by keeping it in the stack and loading it again. How far it is from the stack
# pointer is not looked at: that no index leaves its array is proved of the source.
# Usage: awk -v may='mpt_open mpt_edit' -f fences.awk library.s     prints the number of stores, and the stack that each function takes
BEGIN {
    # what is known: loads, and what only computes
    loads = "^(lb|lbu|lh|lhu|lw|lwu|ld)$"
    computes = "^(li|lui|auipc|mv|add|addi|addw|addiw|sub|subw|neg|negw|not|and|andi|or|ori|xor|xori|sll|slli|sllw|slliw|srl|srli|srlw" \
        "|srliw|sra|srai|sraw|sraiw|slt|slti|sltu|sltiu|seqz|snez|sgtz|sltz|zext\\.b|sext\\.w|mul|mulw|mulh|mulhu|mulhsu|div|divu|divw" \
        "|divuw|rem|remu|remw|remuw)$"
    branches = "^(beq|bne|blt|bge|bltu|bgeu|bgt|ble|bgtu|bleu|beqz|bnez|blez|bgez|bltz|bgtz)$"
    count = split(may, word, " ")
    for (k = 1; k <= count; k++) stores_in[word[k]] = 1
}
# The facts that hold where the reading stands, as words with a space around each: `sp` and other registers that point to the stack,
# `at:16` for a place of the stack that holds such a pointer, and `fenced`.
function has(fact) { return index(facts, " " fact " ") > 0 }
function drop(fact,   i) { while (i = index(facts, " " fact " ")) facts = substr(facts, 1, i) substr(facts, i + length(fact) + 2) }
function put(fact, holds) { drop(fact); if (holds) facts = facts fact " " }
function drop_like(pattern) { while (match(facts, " " pattern " ")) facts = substr(facts, 1, RSTART) substr(facts, RSTART + RLENGTH) }
function both(a, b,   w, m, k, t) {
    m = split(a, w, " "); t = " "
    for (k = 1; k <= m; k++) if (index(b, " " w[k] " ")) t = t w[k] " "
    return t
}

function refuse(message) { if (final) { print "fences: " name ": " message ": " source[line]; bad = 1 } }
# Where the reading may go on: what holds at a label is what holds on every way to it.
function go(label,   t) {
    t = (label in at_label) ? both(at_label[label], facts) : facts
    if (!(label in at_label) || t != at_label[label]) { at_label[label] = t; changed = 1 }
}
function stack_place(text) { sub(/\(.*/, "", text); return text + 0 }

function store(op, from, place,   base, at, w, m, k) {
    base = place; sub(/.*\(/, "", base); sub(/\).*/, "", base)
    if (base == "sp") {
        at = stack_place(place)
        m = split(facts, w, " ")
        for (k = 1; k <= m; k++) if (w[k] ~ /^at:/ && substr(w[k], 4) - at < 8 && at - substr(w[k], 4) < 8) drop(w[k])
        put("at:" at, op == "sd" && has(from))
    } else if (has(base)) drop_like("at:-?[0-9]+")
    else {
        if (op != "sd") refuse("a store to the table that is no sd")
        else if (!has("fenced")) refuse("a store to the table without its fence")
        else if (!(name in stores_in)) refuse("a function that must not store to the table does")
        drop("fenced")
        if (final) made++
    }
}
function compute(op, to, a, b,   holds) {
    if (op == "mv" || op == "addi") holds = has(a)
    else if (op == "add") holds = has(a) != has(b)
    else if (op == "sub") holds = has(a) && !has(b)
    else if (op == "ld" && a ~ /\(sp\)$/) holds = has("at:" stack_place(a))
    if (to == "sp") {
        if (!holds) refuse("the stack pointer is lost")
        else if (op == "sub") refuse("takes more stack than can be told")
        drop_like("at:-?[0-9]+")
        if (final && op == "addi" && b < 0) frame -= b
        return
    }
    put(to, holds)
}
function call(callee) {
    if (callee !~ /^(memset|memcpy|memmove)$/) refuse("a call that is not known")
    else if (!has("a0")) refuse("writes outside the stack")
    drop("fenced"); drop_like("(ra|t[0-6]|a[0-7]|at:-?[0-9]+)")
}

# One instruction: what holds after it. `dead` says that the reading does not go on to the next.
function step(text,   w, op, label) {
    gsub(/,/, " ", text); split(text, w, " "); op = w[1]
    if (op == "fence") { if (w[2] == "rw" && w[3] == "w") put("fenced", 1) }
    else if (op ~ /^s[bhwd]$/) store(op, w[2], w[3])
    else if (op ~ loads || op ~ computes) compute(op, w[2], w[3], w[4])
    else if (op ~ branches) go(w[split(text, w, " ")])
    else if (op == "call") call(w[2])
    else if (op == "tail") { call(w[2]); dead = 1 }
    else if (op == "j") { go(w[2]); dead = 1 }
    else if (op == "jr") { for (label in labels) go(label); dead = 1 }
    else if (op == "ret" || op == "unimp" || op == "ebreak") dead = 1
    else refuse("an instruction that is not known")
}
function pass() {
    changed = 0; dead = 0; facts = " sp "
    for (line = 1; line <= n; line++) {
        if (source[line] ~ /:$/) {
            label = source[line]; sub(/:$/, "", label)
            if (!dead) go(label)
            dead = !(label in at_label)
            if (!dead) facts = at_label[label]
        } else if (!dead) step(source[line])
    }
}
# Until nothing changes; then once more, to judge.
function check() {
    split("", at_label); frame = 0
    do { final = 0; pass() } while (changed)
    final = 1; pass()
    functions++
    stack = stack " " name " " frame
}

{ sub(/#.*/, ""); sub(/[ \t]+$/, ""); sub(/^[ \t]+/, "") }
/^\.type[ \t].*@function/ { name = $2; sub(/,.*/, "", name); next }
$0 == name ":" { inside = 1; n = 0; split("", labels); next }
/^\.Lfunc_end[0-9]+:$/ { if (inside) check(); inside = 0; next }
!inside || /^$/ || /^\.[a-z]/ && !/:$/ { next }
{ source[++n] = $0; if (/:$/) { sub(/:$/, ""); labels[$0] = 1 } }
END {
    if (inside || !functions) { print "fences: no whole function to read"; bad = 1 }
    if (bad) exit 1
    print "fences: " made + 0 " stores to the table, each an sd behind a fence rw, w; every other store is to the stack"
    print "stack:" stack
}
