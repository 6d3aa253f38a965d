# width.awk: goes over jig.ll, the module that rattle makes for x86-64, and refuses it where its meaning could depend on how wide a pointer is. We
# compile the same module for machines of 32 bits (Cortex-M3 and M4, rv32), with their triple and data layout in place of x86-64's. It prints what it
# has seen, or of the first line that it refuses `width: FUNCTION: what: the line`, and exits with 1.
#
# What could depend on the width, and how each is kept out:
# - A pointer turned into a number, or compared. Every line has one of the forms of BEGIN, where a pointer is only made by an alloca, loaded, stored,
#   stepped on by bytes, passed to a function of the module that takes one there, or handed to a memmove. Any other line is refused.
# - Sizes and places. An object has a constant size and is of bytes, of one number or of one pointer, and places in it are counted in bytes. The types
#   of numbers have the same size and alignment in all the data layouts (i64 and double 8 of both), the low byte first. Only a pointer is narrower, with
#   4 bytes. So an `alloca ptr` has 4 there: it is loaded and stored, as a pointer, and nothing else. Among bytes a pointer has 8, and the last 4 aren't
#   used there: where a pointer is stored or loaded no number is, on any of the 8, and a memmove takes all of them or none (of a number's, too).
# - Alignment. x86-64 forgives a wrong one, the others don't. No load or store says more than its type's, and an object that is known has what is said.
# - What is cut to 32 bits: the length of a memmove and the step of a getelementptr. A constant has at most four digits, and a length is always one.
#
# What a pointer points to: it is an alloca's or an argument's with a constant step, or else it points `outside`, where a loaded pointer, one from C or
# a step that varies can lead. An object whose address is stored, or stepped on by what varies, is outside too. Outside there are no pointers at all.
# In the other objects we note which bytes hold pointers and which hold numbers. A call binds the callee's argument to what is passed, and a memmove
# binds the bytes that it takes to where they go: what is noted on one side holds on the other, until there is nothing new. No order is looked at: a
# byte that is a pointer's once is never a number's.
#
# What is left to trust: clang, for each machine; that a step which varies leads into its object or to its end, and to a place aligned as is said,
# which rattle proves; and that an object is real memory, which on a machine of 32 bits is less than 2 GiB, as C's ptrdiff_t has it. Then the step is
# less than 2^31, and cutting it changes nothing. And that C lends memory as the header says, aligned as its types are.
BEGIN {
    FS = "[ ,()]+"
    few = "[0-9][0-9]?[0-9]?[0-9]?"
    value = "%[a-z0-9.]+"
    name = "@(\"[A-Za-z0-9_:]+\"|sill_[a-z0-9_]+)"
    whole = "(i1|i8|i16|i32|i64)"
    held = "(i8|i16|i32|i64|double|ptr)"
    result = "(void|double|" whole ")"
    operand = "(" value "|-?[0-9]+|true|false)"
    two = whole " " operand ", " operand
    number = "(" whole " " operand "|double " value ")"
    passed = "(ptr " value "|" number ")"
    taken = "(ptr|double|" whole ") noundef( zeroext)? %a[0-9]+"

    alloca = "^  " value " = alloca (" held "|[[]" few " x i8[]]), align [1248]$"
    load = "^  " value " = load " held ", ptr " value ", align [1248](, !range ![0-9]+)?(, !noundef ![0-9]+)?$"
    store = "^  store " held " " operand ", ptr " value ", align [1248]$"
    step = "^  " value " = getelementptr (inbounds nuw )?i8, ptr " value ", i64 (" value "|" few ")$"
    move = "^  call void @llvm[.]memmove[.]p0[.]p0[.]i64[(]ptr " value ", ptr " value ", i64 " few ", i1 false[)]$"
    call = "^  (" value " = )?call " result " " name "[(](" passed "(, " passed ")*)?[)]$"
    numbers = "^  " value " = ((add|sub|mul)( nuw)?( nsw)? " two "|(udiv|urem|and|or|xor|shl|lshr) " two "|icmp (eq|ne|ult|ule|slt) " two \
        "|(zext|trunc|trunc nuw) " whole " " operand " to " whole "|bitcast i64 " value " to double|fdiv double 0[.]0+e[+]00, 0[.]0+e[+]00" \
        "|call i64 @llvm[.](cttz[.]i64[(]i64 " value ", i1 false[)]|ctpop[.]i64[(]i64 " value "[)]))$"
    flow = "^(  (br label " value "|br i1 " value ", label " value ", label " value "|switch " whole " " value ", label " value " [[]|[]]" \
        "|  " whole " -?[0-9]+, label " value "|ret void|ret " number "|unreachable|call void @llvm[.]trap[(][)])|[a-z]+([.][0-9]+)?:( +; .*)?)$"
    define = "^define (internal )?(noundef )?(zeroext )?" result " " name "[(](" taken "(, " taken ")*)?[)] #[0-9]+ [{]$"
    around = "^(;.*|source_filename = \"rattle\"|target triple = \"x86_64-unknown-linux-gnu\"" \
        "|target datalayout = \"e-m:e-p270:32:32-p271:32:32-p272:64:64-i64:64-i128:128-f80:128-n8:16:32:64-S128\"" \
        "|declare void @llvm[.]memmove[.]p0[.]p0[.]i64[(]ptr writeonly captures[(]none[)], ptr readonly captures[(]none[)], i64, i1 immarg[)] #[0-9]+" \
        "|declare i64 @llvm[.](cttz[.]i64[(]i64, i1 immarg|ctpop[.]i64[(]i64)[)] #[0-9]+|declare void @llvm[.]trap[(][)] #[0-9]+" \
        "|attributes #[0-9]+ = [{]( (nounwind|nocallback|nofree|nosync|willreturn|speculatable|nocreateundeforpoison|cold|noreturn" \
        "|memory[(](none|argmem: readwrite|inaccessiblemem: write)[)]|\"probe-stack\"=\"inline-asm\"|\"target-cpu\"=\"x86-64\"))* [}]" \
        "|!llvm[.]ident = ![{]!0[}]|![0-9]+ = ![{](i8 0, i8 2|!\"rattle logic=[0-9a-f]+\")?[}])$"

    bytes["i8"] = 1; bytes["i16"] = 2; bytes["i32"] = 4; bytes["i64"] = bytes["double"] = bytes["ptr"] = 8
    far = 10000 # further than any place in an object
    owner[0] = here = "the module"
}
{ said[NR] = $0; sub(/^ +/, "", said[NR]); owner[NR] = here }
$0 ~ load {
    touch($5, $7, $9)
    if ($5 == "ptr") point($2, "outside", 0)
    next
}
$0 ~ store {
    touch($3, $6, $8)
    if ($3 == "ptr") { lend($4); note("outside", object[$4], 0, 0, NR) }
    next
}
$0 ~ step {
    base = $(NF - 2)
    lend(base)
    if ($NF !~ /^%/) { steady++; point($2, object[base], place[base] + $NF); next }
    if ($5 == "inbounds") inbounds++; else if (object[base] == "outside") loose++; else own++
    note("outside", object[base], 0, 0, NR)
    point($2, "outside", 0)
    next
}
$0 ~ alloca {
    n = here " " $2
    point($2, n, 0)
    size[n] = $5 in bytes ? bytes[$5] : substr($5, 2) + 0
    aligned[n] = $NF
    if ($5 == "ptr") { alone[n] = 1; lone++; note("pointer", n, 0, 8, NR) }
    next
}
$0 == "" || $0 ~ flow || $0 ~ numbers { next }
$0 ~ move {
    lend($6); lend($8); moves++
    bind(object[$6], place[$6], object[$8], place[$8], $10, 0)
    bind(object[$8], place[$8], object[$6], place[$6], $10, 0)
    next
}
$0 ~ call {
    i = named()
    called[NR] = plain($i)
    passes[NR] = types(i)
    for (k = 0; i + 2 * k + 2 < NF; k++) {
        v = $(i + 2 * k + 2); n = called[NR] " %a" k
        if ($(i + 2 * k + 1) != "ptr") continue
        lend(v)
        bind(n, 0, object[v], place[v], far, 1)
        bind(object[v], place[v], n, 0, far, 0)
    }
    next
}
$0 ~ define {
    i = named()
    owner[NR] = here = plain($i)
    functions++
    takes[here] = types(i)
    split("", object)
    for (k = 0; i < NF; i++) if ($i ~ /^%/) {
        if ($i != "%a" k++) refuse("an argument whose name isn't its number", NR)
        n = here " " $i
        if ($(i - 2) != "ptr") continue
        point($i, n, 0)
        size[n] = far
        if ($2 != "internal") note("outside", n, 0, 0, NR)
    }
    next
}
$0 == "}" { here = "the module"; next }
$0 ~ around { next }
{ refuse(fault($0), NR) }
END {
    if (bad) exit 1
    if (!functions || here != "the module") refuse("a text that isn't whole", NR)
    for (k in called) if (takes[called[k]] != passes[k]) refuse("a call that doesn't fit what it calls", k)
    for (k = 1; k <= notes; k++) spread(kinds[k], objects[k], places[k], widths[k], lines[k])
    print "width: " functions " functions, " touches["number"] " loads and stores of numbers, " moves " moves"
    print "width: " touches["pointer"] " loads and stores of pointers, at " lone " places of their own and " slots - lone " among bytes"
    print "width: " steady " steps are constants; cut: " inbounds " inbounds, and not so " loose " from a loaded pointer and " own " over an object"
}

function refuse(why, line) { print "width: " owner[line] ": " why ": " said[line] >"/dev/stderr"; bad = 1; exit 1 }
# where among the words the function stands that is defined or called
function named(i) { for (i = 3; $i !~ /^@/; i++) continue; return i }
function plain(f) { gsub(/[@"]/, "", f); return f }
# its types: what it answers, and what is passed
function types(i, list) { for (list = $(i - 1); i <= NF; i++) if ($i ~ /^(ptr|double|i[0-9]+)$/) list = list " " $i; return list }
# what is wrong with a line that has none of the forms
function fault(l) {
    if (l ~ /ptrtoint|inttoptr|addrspacecast|bitcast.*ptr/) return "a cast between pointers and numbers"
    if (l ~ /icmp [a-z]+ ptr/) return "a comparison of pointers"
    if (l ~ /^@/) return "a global"
    if (l ~ /getelementptr/) return "a step that isn't by bytes, or is by too many"
    if (l ~ /llvm[.]memmove/) return "a move whose length isn't a small constant"
    if (l ~ /alloca .*, i[0-9]+ %/) return "an object whose size isn't a constant"
    if (l ~ /call [^@]*%[^ ]*[(]/) return "an indirect call"
    return "a form that isn't known"
}

# the pointer v is to place o of object n
function point(v, n, o) { object[v] = n; place[v] = o }
function known(v) { if (!(v in object)) refuse("a pointer to nothing known", NR) }
# the pointer v is used for more than a load or a store
function lend(v) { known(v); if (object[v] in alone) refuse("an alloca of a pointer that isn't just loaded and stored", NR) }
# a load or a store of a type through the pointer v
function touch(type, v, align, kind) {
    known(v)
    if (align > bytes[type]) refuse("an alignment beyond its type's", NR)
    kind = type == "ptr" ? "pointer" : "number"
    touches[kind]++
    note(kind, object[v], place[v], bytes[type], NR)
    note("aligned", object[v], place[v], align, NR)
}
# w bytes of object n from o on are those of object m from p on; up: n is an argument, and m what is passed
function bind(n, o, m, p, w, up, k) {
    binds[n]++
    k = n SUBSEP binds[n]
    to[k] = m; low[k] = o; high[k] = o + w; shift[k] = p - o; ups[k] = up; binder[k] = NR
}

# A line tells something of object n: that it is `outside`, or that at o there is on w bytes a `pointer` or a `number`, or a place `aligned` to w.
function note(kind, n, o, w, line) {
    if (n == "outside" && kind == "pointer") refuse("a pointer where a loaded pointer, C or a step that varies can lead", line)
    if (n == "outside" || (kind, n, o, w) in noted) return
    noted[kind, n, o, w] = 1
    if (kind == "outside") outside[n] = line
    else if (kind == "aligned") { if (n in aligned && (o % w || w > aligned[n])) refuse("an alignment that its object doesn't have", line) }
    else fill(kind, n, o, w, line)
    if (kind == "pointer") { holds[n] = line; slots += n in aligned }
    if (n in outside && n in holds) refuse("a pointer in an object that is outside by " owner[outside[n]] " (" said[outside[n]] ")", holds[n])
    notes++
    kinds[notes] = kind; objects[notes] = n; places[notes] = o; widths[notes] = w; lines[notes] = line
}
# each byte is marked as a number's, or with where its pointer begins
function fill(kind, n, o, w, line, b, m) {
    if (o + w > size[n]) refuse("a place beyond its object", line)
    m = kind == "number" ? kind : o
    for (b = o; b < o + w; b++) {
        if (!((n, b) in mark)) { mark[n, b] = m; marker[n, b] = line }
        if (mark[n, b] == m) continue
        if (kind == "number") clash(line, marker[n, b]); else clash(marker[n, b], line)
    }
}
function clash(line, other) { refuse("a place where " owner[other] " has a pointer (" said[other] ")", line) }
# hands on what is known of object n to all that it is bound to
function spread(kind, n, o, w, line, i, k) {
    for (i = 1; i <= binds[n]; i++) {
        k = n SUBSEP i
        if (kind == "outside") { if (ups[k]) note(kind, to[k], 0, 0, line); continue }
        if (kind == "aligned") { if (ups[k]) note(kind, to[k], o + shift[k], w, line); continue }
        if (o + w <= low[k] || high[k] <= o) continue
        if (o < low[k] || high[k] < o + w) refuse("a part of the " kind " that " owner[line] " has there (" said[line] ")", binder[k])
        note(kind, to[k], o + shift[k], w, line)
    }
}
