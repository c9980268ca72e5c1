# mark.awk: reads the text of the LLVM module that the kit hands to its compiler, before any optimisation. It
#   - checks that in the whole module one store alone can reach the memory that C lends: an aligned 8-byte store in the function named in
#     `table`. Every other store, copy or fill goes to a local of some function, wherever its pointer came from;
#   - writes the module with that store marked as `how` says; for riscv64, with every function inside the exported ones, so that each
#     local lies in the frame of an exported function and assembly/fences.awk can tell the stack's stores by their address.
# Usage: awk -v table=table::store::store_word [-v how='..'] [-v target=riscv64] -f mark.awk module.ll >marked.ll
#
# Where a pointer leads is worked out by a points-to analysis of the whole module (Andersen's): each value and the contents of each local
# have a set of what they may lead to: locals (allocas), `lent` (what C hands in) and `unknown` (a number or a constant taken for a
# pointer). Pointers are followed through locals, arguments and results. It takes no account of order, nor of which call an argument came
# from, and a local is one thing, so that it can only err by refusing. An instruction that it doesn't know it refuses. That no index leaves
# its local is proved of the source.
BEGIN {
    if (how == "") how = "store atomic volatile i64 V, ptr P release, align 8"
    quiet = "^(icmp|zext|sext|trunc|br|switch|unreachable|add|sub|mul|udiv|urem|sdiv|srem|and|or|xor|shl|lshr|ashr)$"
    pair = "[{] i[0-9]+, i[0-9]+ [}]" # two numbers, as a small result: no pointer is in it
    returns = "(void|ptr|i[0-9]+|" pair ") "
    point("C", "lent", ""); point("unknown", "unknown", ""); flow("unknown", "*lent"); flow("unknown", "*unknown")
}
function fail(f, message) { print "mark: " (f ? name[f] : "module") ": " message > "/dev/stderr"; bad = 1 }

# The analysis. A place is a value of a function (`7 %r3`), the contents of a local (`*7 %r3`), `C` or `unknown`.
# place v may lead to o; `from` is the place that it was seen in before
function point(v, o, from) {
    if ((v, o) in leads) return
    leads[v, o] = 1; target_of[v, ++targets[v]] = o
    came[v, o] = from
    work[++pending] = v SUBSEP o
}
# what a leads to, b leads to
function flow(a, b,   k) {
    if ((a, b) in flows) return
    flows[a, b] = 1; next_of[a, ++nexts[a]] = b
    for (k = 1; k <= targets[a]; k++) point(b, target_of[a, k], a)
}
function load(p, v) { load_of[p, ++loads[p]] = v }
function store(p, v) { store_of[p, ++stores[p]] = v }
function solve(   done, part, v, o, k) {
    for (done = 1; done <= pending; done++) {
        split(work[done], part, SUBSEP); v = part[1]; o = part[2]; delete work[done]
        for (k = 1; k <= nexts[v]; k++) point(next_of[v, k], o, v)
        for (k = 1; k <= loads[v]; k++) flow("*" o, load_of[v, k])
        for (k = 1; k <= stores[v]; k++) flow(store_of[v, k], "*" o)
    }
}
function leads_out(v) { return ((v, "lent") in leads) || ((v, "unknown") in leads) }
# The functions by which lent memory, or what is not known, came to a place.
function way(v,   o, f, last, text) {
    o = ((v, "lent") in leads) ? "lent" : "unknown"
    for (; v ~ /[0-9]/; v = came[v, o]) {
        f = v; sub(/^\*/, "", f); f += 0
        if (f != last) { text = name[f] (text == "" ? "" : " > " text); last = f }
    }
    return (o == "lent" ? "lent memory" : "what is not known") ", by way of " text
}

# The reading of a function's lines.
# the word after `key`
function after(text, key,   i) { i = index(text, key); text = substr(text, i + length(key)); sub(/[,) ].*/, "", text); return text }
function place(operand) { sub(/.* /, "", operand); return operand ~ /^%/ ? at " " operand : "unknown" }
# the arguments or parameters in a text that ends with `)` and what follows it; -1 if one is not known
function arguments(text, list,   m, k) {
    sub(/^[^(]*\(/, "", text); sub(/\)[^)]*$/, "", text)
    m = split(text, list, ", ")
    for (k = 1; k <= m; k++)
        if (list[k] !~ /^(ptr|i[0-9]+) ((noundef|zeroext|signext|align [0-9]+) )*[^ ]+$/) return -1
    return m
}
function called(text) {
    sub(/^[^@]*@/, "", text)
    if (text ~ /^"/) { text = substr(text, 2); sub(/".*/, "", text) } else sub(/\(.*/, "", text)
    return text
}
# without its name, which may have brackets
function unnamed(text) { sub(/@("[^"]*"|[^(]*)/, "", text); return text }

function write_to(p) { writes++; write_at[writes] = n; write_in[writes] = at; write_place[writes] = p }
function read_intrinsic(t, callee,   list, m) {
    m = arguments(t, list)
    if (callee ~ /^llvm\.mem(move|cpy)\./ && m == 4) {
        load(place(list[2]), at " copy " n); store(place(list[1]), at " copy " n)
        write_to(place(list[1]))
    } else if (callee ~ /^llvm\.memset\./ && m == 4) { store(place(list[1]), "unknown"); write_to(place(list[1])) }
    else if (callee != "llvm.trap" && callee !~ /^llvm\.(ctpop|ctlz|cttz|bswap|fshl|fshr)\./) fail(at, "a call that is not known: " t)
}
# A call: its arguments go to the parameters once all functions are read.
function read_call(t, result,   callee) {
    if (t !~ "^call ((noundef|zeroext|signext) )*" returns "@(\"[^\"]*\"|[A-Za-z0-9_.]+)[(].*[)]( #[0-9]+)?$") {
        fail(at, "a call that is not known: " t)
        return
    }
    callee = called(t)
    if (callee ~ /^llvm\./) { read_intrinsic(unnamed(t), callee); return }
    calls++; call_in[calls] = at; call_text[calls] = t; call_result[calls] = result
}
function read_instruction(t, result,   op) {
    op = t; sub(/[ ,].*/, "", op)
    if (op == "alloca") point(at " " result, at " " result, "")
    else if (t ~ /^load ptr, ptr [^ ,]+, align [0-9]+(, ![a-z]+ ![0-9]+)*$/) load(place(after(t, ", ptr ")), at " " result)
    else if (t ~ /^load i[0-9]+, ptr [^ ,]+, align [0-9]+(, ![a-z]+ ![0-9]+)*$/) return
    else if (t ~ "^(load " pair ", ptr [^ ,]+, align [0-9]+|extractvalue " pair " [^ ,]+, [01]|ret " pair " [^ ,]+)$") return
    else if (t ~ /^getelementptr .*, ptr [^ ,]+, /) flow(place(after(t, ", ptr ")), at " " result)
    else if (t ~ /^store (ptr|i[0-9]+) [^ ,]+, ptr [^ ,]+, align [0-9]+$/) {
        # a number may be read again as a pointer, and then leads anywhere
        store(place(after(t, ", ptr ")), t ~ /^store ptr / ? place(after(t, "store ptr ")) : "unknown")
        write_to(place(after(t, ", ptr ")))
    } else if (op == "call") read_call(t, result)
    else if (t ~ /^ret ptr /) flow(place(t), at " returned")
    else if (t !~ /^ret (void$|i[0-9]+ )/ && op !~ quiet) fail(at, "an instruction that is not known: " t)
}
function read_line(t,   result) {
    if (t == "" || t ~ /^[^ ]+:( |$)/ || t ~ /^ *(;|i[0-9]+ -?[0-9]+, label |\]$)/) return
    sub(/^ +/, "", t)
    if (match(t, /^%[^ ]+ = /)) { result = substr(t, 1, RLENGTH - 3); t = substr(t, RLENGTH + 1) }
    sub(/^tail call/, "call", t)
    read_instruction(t, result)
}
function read_define(text,   list, m, k) {
    at = ++functions; name[at] = called(text); number_of[name[at]] = at
    exported[at] = text !~ /^define (internal|private) /
    if (text !~ "^define ((internal|private|noundef|zeroext|signext) )*" returns "@") fail(at, "a function that is not known: " text)
    m = arguments(unnamed(text), list)
    if (m < 0) fail(at, "a parameter that is not known: " text)
    for (k = 1; k <= m; k++) { is_pointer[at, k] = list[k] ~ /^ptr /; parameter[at, k] = place(list[k]) }
    parameters[at] = m
}

# Every argument goes to its parameter. C calls the exported functions; a function that nobody calls is taken for one of them.
function join_calls(   c, f, list, m, k) {
    for (c = 1; c <= calls; c++) {
        at = call_in[c]; f = number_of[called(call_text[c])]; m = arguments(unnamed(call_text[c]), list)
        if (!f || m != parameters[f]) { fail(at, "a call that is not known: " call_text[c]); continue }
        is_called[f] = 1
        for (k = 1; k <= m; k++) if (is_pointer[f, k]) flow(list[k] ~ /^ptr / ? place(list[k]) : "unknown", parameter[f, k])
        if (call_result[c] != "") flow(f " returned", at " " call_result[c])
    }
    for (f = 1; f <= functions; f++)
        if (exported[f] || !is_called[f]) for (k = 1; k <= parameters[f]; k++) if (is_pointer[f, k]) flow("C", parameter[f, k])
}
function mark(k,   t, v, p) {
    t = line[write_at[k]]; sub(/^ +/, "", t)
    if (t !~ /^store i64 [^ ]+, ptr %[^ ]+, align 8$/) { fail(write_in[k], "not a plain aligned 8-byte store: " t); return }
    v = after(t, "store i64 "); p = after(t, ", ptr "); t = how; sub(/V/, v, t); sub(/P/, p, t)
    line[write_at[k]] = "  " t; marked++
}
function judge(   k, t) {
    for (k = 1; k <= writes; k++) {
        t = line[write_at[k]]; sub(/^ +/, "", t)
        if (!targets[write_place[k]]) fail(write_in[k], "writes through a pointer that comes from nowhere: " t)
        else if (!leads_out(write_place[k])) continue
        else if (name[write_in[k]] != table) fail(write_in[k], "may write outside its locals: " t ": to " way(write_place[k]))
        else { into++; mark(k) }
    }
    if (!(table in number_of)) fail(0, "no function " table)
    else if (into != 1) fail(number_of[table], into + 0 " stores to lent memory, and not one")
}
# The module for RISC-V: each function inside the exported ones. A pointer from C is aligned to 8 bytes, as mpt.h asks: RISC-V would read
# a slot byte by byte otherwise.
function for_riscv64(text) {
    if (text ~ /^target datalayout/) return "target datalayout = \"e-m:e-p:64:64-i64:64-i128:128-n32:64-S128\""
    if (text ~ /^target triple/) return "target triple = \"riscv64-unknown-unknown-elf\""
    if (text ~ /^attributes /) gsub(/ "(probe-stack|stack-probe-size|target-cpu)"="[^"]*"/, "", text)
    else if (text ~ /^define internal /) sub(/( #[0-9]+)? \{$/, " alwaysinline&", text)
    else if (text ~ /^define /) gsub(/ptr noundef/, "ptr noundef align 8", text)
    return text
}

{ line[++n] = $0 }
/^define / { inside = 1; read_define($0); next }
/^}/ { inside = 0; next }
inside { read_line($0); next }
!/^($|;|source_filename |target |declare |attributes |!|@[^=]* = ([a-z_]+ )*constant )/ { fail(0, "a line that is not known: " $0) }
END {
    join_calls(); solve(); judge()
    if (bad) exit 1
    for (k = 1; k <= n; k++) print target == "riscv64" && line[k] !~ /^ / ? for_riscv64(line[k]) : line[k]
    print "mark: of " writes " stores, copies and fills " marked " can reach lent memory: the one in " table ", which is marked" > "/dev/stderr"
}
