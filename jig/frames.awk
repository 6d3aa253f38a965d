# frames.awk: the stack that each call of the library needs, by its code. With it goes frames-x86-64.awk or frames-thumb.awk, which knows the
# machine's instructions:
#
#     awk -f jig/frames.awk -f jig/frames-x86-64.awk crates/terms/src/readers.rt crates/terms/src/steps.rt CODE
#
# CODE is what `objdump -r` and then `objdump -dr --no-show-raw-insn` print of the library. Prints `call limit bytes` for the nesting limits 1, 8
# and 64; where the machine keeps return addresses on the stack, the call's own is among the bytes. -v calls=REGEX: of other functions than sill_*.
#
# Each function is walked from its entry on along all jumps, and each instruction has one depth: how far the stack pointer lies there below where
# it was before the call. All ways to an instruction must agree on it, so that nothing is pushed in a loop, and a function returns at the depth
# at which it was entered. A call counts from the depth at which it is made, and so does a jump into another function. The bound is the longest way
# through the calls. What isn't understood of the stack, of a jump or of a call is an error; so is an instruction that no way leads to, and an
# address of code that is kept.
#
# Reading calls itself; the steps of steps.rt call no reader. The readers of readers.rt hand on `rem`, the levels of nesting that are left. `term`
# and `child` are given those left for the term that they read: at 0 they refuse, else they take one off before they hand it on, but that `child` hands `term` what it was given. All
# others hand on what they were given. So a level falls where a call leads from the others back to those two: where `required` calls `term` and
# `kids` calls `child`. No way has more falls than the limit has levels. In the code a reader may have become part of another, and a call from
# reader to reader stands for some way between them in the source: it falls where each such way does, which is where none goes by the source's
# other calls alone. A circle without a fall is an error.
BEGIN {
    limits = split("1 8 64", limit)
    fall["required", "term"] = fall["kids", "child"] = 1

    # What may be called and isn't here. Each takes its return address and what -v routines=BYTES says: 0, where it keeps to its registers.
    n = split("memcpy memmove memset __aeabi_memcpy __aeabi_memcpy4 __aeabi_memcpy8 __aeabi_memmove __aeabi_memmove4 __aeabi_memmove8" \
        " __aeabi_memset __aeabi_memset4 __aeabi_memset8 __aeabi_memclr __aeabi_memclr4 __aeabi_memclr8", routine)
    for (k = 1; k <= n; k++) outside[routine[k]] = 1
    if (calls == "") calls = "^sill_"
}

# The source: each reader, and what stands in it.
FILENAME ~ /\.rt$/ {
    sub(/\/\/.*/, "")
    if (match($0, /^ *(pub\(crate\) )?fn [a-z_]+\(/)) {
        reader = substr($0, 1, RLENGTH - 1)
        sub(/.* /, "", reader)
        source[reader] = ""
    } else if (reader != "") source[reader] = source[reader] "\n" $0
    next
}

# Addresses in data. Those of code are tables of jumps: they lie in .rodata.F and lead into F.
/^RELOCATION RECORDS FOR / { section = substr($4, 2, length($4) - 3); next }
/^Disassembly of section / { section = ""; next }
section != "" {
    # the code's come again with the code; nobody unwinds
    if ($2 !~ /^R_/ || section ~ /^\.(text|eh_frame|ARM\.exidx|debug)/) next
    f = section
    n = addend($3)
    if (!sub(/^\.rodata\./, "", f) || symbol != ".text." f) fail(section ": keeps the address of " symbol)
    entries[f]++
    offset[f, entries[f]] = hex($1)
    target[f, entries[f]] = n
    next
}

# The code: functions, instructions, and behind an instruction the address in it that is still open.
/^[0-9a-f]+ <.*>:$/ {
    f = substr($0, index($0, "<") + 1)
    sub(/>:$/, "", f)
    if (f in first) fail(f ": stands here twice")
    functions[++count] = f
    first[f] = i + 1
    next
}
/^[ \t]+[0-9a-f]+: R_/ { if (i in open) fail(f ": two addresses in " line[i]); open[i] = $3; next }
/^ *[0-9a-f]+:\t/ {
    of[++i] = f
    at[i] = hex(substr($1, 1, length($1) - 1))
    here[f, at[i]] = i
    line[i] = substr($0, index($0, "\t") + 1)
    sub(comment, "", line[i])
    gsub(/[ \t]+/, " ", line[i])
    sub(/ $/, "", line[i])
    next
}
/^\t\.\.\.$/ { fail(f ": bytes are left out") }

END {
    if (bad) exit bad
    for (n = 1; n <= count; n++) walk(functions[n])
    same_level()
    # by levels, so that no way is followed through more than one
    for (k = 0; k <= limit[limits]; k++) for (n = 1; n <= count; n++) worst(functions[n], k)
    for (n = 1; n <= count; n++) if (functions[n] ~ calls) for (k = 1; k <= limits; k++) print functions[n], limit[k], worst(functions[n], limit[k])
}

function fail(text) { if (!bad) print "frames: " text >"/dev/stderr"; bad = 1; exit 1 }
# the instruction that is walked over
function wrong(text) { fail(sprintf("%s+0x%x: %s: %s", f, at[i], line[i], text)) }
function hex(digits, n, k) { n = 0; for (k = 1; k <= length(digits); k++) n = n * 16 + index("0123456789abcdef", substr(digits, k, 1)) - 1; return n }
# `symbol+0x10`: its number, and its symbol
function addend(text, n) {
    symbol = text
    if (!match(text, /[-+]0x[0-9a-f]+$/)) return 0
    symbol = substr(text, 1, RSTART - 1)
    n = hex(substr(text, RSTART + 3))
    return substr(text, RSTART, 1) == "-" ? -n : n
}

function walk(name, op, args) {
    f = name
    depth = deepest[f] = entry
    left = 0
    reach(first[f])
    while (left) {
        i = todo[left--]
        depth = reached[i]
        ends = 0
        op = args = line[i]
        sub(/ .*/, "", op)
        if (!sub(/^[^ ]+ /, "", args)) args = ""
        step(op, args, open[i])
        if (!ends) reach(i + 1)
    }
    for (i = first[f]; of[i] == f; i++) if (!(i in reached) && line[i] !~ padding) wrong("no way leads here")
}
function reach(to) {
    if (of[to] != f) wrong("runs over the function's end")
    if (!(to in reached)) {
        reached[to] = depth
        todo[++left] = to
    } else if (reached[to] != depth) wrong("leads to where the stack is at another depth")
}

# What a machine's file says of an instruction. The stack pointer falls by n bytes.
function down(n) {
    depth += n
    if (depth < entry) wrong("takes more off the stack than was put there")
    below(0)
}
# It touches what lies n bytes below.
function below(n) { if (deepest[f] < depth + n) deepest[f] = depth + n }
# It leads to a place of this function.
function go(address) { if ((f, address) in here) reach(here[f, address]); else wrong("leads to no instruction") }
# It returns.
function leave() { if (depth != entry) wrong("returns with something left on the stack"); ends = 1 }
# It calls.
function call(to) {
    if (!(to in first) && !(to in outside)) wrong("calls what isn't here")
    if (!((f, to) in from)) callees[f] = callees[f] " " to
    if (from[f, to] < depth) from[f, to] = depth
}
# It jumps, to a place of this function or to another function, which returns for this one. Where no address is open, args has it: 1a <f+0x1a>.
function jump(args, to) {
    if (to == f) go(at[first[f]])
    else if (to == "" && (named(args) == f || index(named(args), f "+0x") == 1)) go(hex(substr(args, 1, index(args, " ") - 1)))
    else {
        if (to == "") to = named(args)
        if (to ~ /\+0x/) wrong("leads into another function")
        if (depth != entry) wrong("leaves with something left on the stack")
        depth -= entry
        call(to)
        depth += entry
    }
}
function named(args) { if (!match(args, /<.*>$/)) wrong("leads to no name"); return substr(args, RSTART + 1, RLENGTH - 2) }

# which readers lead to which by calls that don't fall
function same_level(a, b, c) {
    for (a in source) for (b in source) if (source[a] ~ "[^a-z_]" b "\\(" && !((a, b) in fall)) same[a, b] = 1
    for (b in source) for (a in source) for (c in source) if ((a, b) in same && (b, c) in same) same[a, c] = 1
}
function falls(a, b) {
    if (!sub(/^terms::Reader::/, "", a) || !sub(/^terms::Reader::/, "", b)) return 0
    if (!(a in source) || !(b in source)) fail("terms::Reader: no such reader or step in the source: " a ", " b)
    return !((a, b) in same)
}
# the longest way from a function on with k levels left
function worst(f, k, best, n, to, w, i) {
    if (!(f in first)) return entry + routines
    if ((f, k) in known) return known[f, k]
    if ((f, k) in walking) fail(f ": calls itself, and no nesting bounds it")
    walking[f, k] = 1
    best = deepest[f]
    n = split(callees[f], to, " ")
    for (i = 1; i <= n; i++) {
        w = from[f, to[i]] + (!falls(f, to[i]) ? worst(to[i], k) : k ? worst(to[i], k - 1) : 0)
        if (best < w) best = w
    }
    delete walking[f, k]
    return known[f, k] = best
}
