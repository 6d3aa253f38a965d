# frames-x86-64.awk: the instructions of x86-64 for frames.awk, as GNU objdump writes them.
BEGIN {
    entry = 8 # the return address
    comment = " +#.*$"
    padding = "(^| )(nop[lw]?|ud2|int3)|^xchg %ax,%ax$"
}
function step(op, args, to, bare, n) {
    while (op ~ /^(rep|repz|repnz|lock|bnd|notrack|data16|cs|ds)$/) {
        op = args
        sub(/ .*/, "", op)
        if (!sub(/^[^ ]+ /, "", args)) args = ""
    }
    if (op ~ /^(push|pop|call|ret|jmp)q$/) sub(/q$/, "", op)
    # what calls nothing may use what lies below its frame
    if (match(args, /-0x[0-9a-f]+\(%rsp/)) below(hex(substr(args, RSTART + 3, RLENGTH - 8)))
    bare = args
    gsub(/\([^()]*\)/, "", bare)
    if (bare ~ /%(rsp|esp|sp|spl)/) {
        # by a number it is moved, elsewhere read
        if (op ~ /^(add|sub)$/ && args ~ /^\$0x[0-9a-f]+,%rsp$/) {
            n = signed(substr(args, 4, index(args, ",") - 4))
            down(op == "sub" ? n : -n)
        } else if (op !~ /^(mov|add)$/ || bare !~ /^%rsp,/ || bare ~ /sp$/) wrong("what becomes of the stack pointer isn't understood")
    } else if (op == "push") down(8)
    else if (op == "pop") down(-8)
    else if (op == "ret" && args == "") leave()
    else if (op == "call" && args !~ /^\*/) call(to == "" ? named(args) : opened(to))
    else if (op ~ /^j/ && args !~ /^\*/) {
        jump(args, opened(to))
        if (op == "jmp") ends = 1
    } else if (op == "jmp" && args ~ /^\*%r[a-z0-9]+$/) by_table()
    else if (args ~ /^\*/) wrong("leads to what isn't known")
    else if (op == "ud2") ends = 1
    else if (op ~ /^(push|pop|ret|call|l(ret|call|jmp)|loop|enter|leave|i?ret|int|sys|hlt|xbegin|\()/ && op != "popcnt") wrong("isn't understood")
    # behind a prefix that isn't known
    else if (args ~ /^(push|pop|ret|call|jmp)/) wrong("isn't understood")
    else if (to != "" && to !~ /^\.(rodata|LCPI)/) wrong("keeps the address of " to)
}
# the function whose address is open in a call or a jump: it counts from the next instruction, four bytes on
function opened(to) {
    if (to == "") return ""
    if (addend(to) != -4) wrong("leads into another function")
    sub(/^\.text\./, "", symbol)
    return symbol
}
# A jump by a register goes by the function's own tables, since no other address of code is kept. An entry is the way from its table's start to a
# place; as an open address it counts from where it stands.
function by_table(n) {
    if (!(f in entries)) wrong("leads to what isn't known")
    for (n = 1; n <= entries[f]; n++) go(target[f, n] - (offset[f, n] - table_of(offset[f, n])))
    ends = 1
}
# where in .rodata.F the table of an entry starts: at the last place before it that the code names
function table_of(place, k, n, start) {
    start = -1
    for (k = first[f]; of[k] == f; k++) {
        n = addend(open[k]) + 4
        if (symbol == ".rodata." f && n <= place && start < n) start = n
    }
    if (start < 0) wrong("its table has no start")
    return start
}
# a number of 64 bits
function signed(digits, n, k) {
    if (length(digits) < 16 || digits !~ /^[89a-f]/) return hex(digits)
    n = 0
    for (k = 1; k <= 16; k++) n = n * 16 + 16 - index("0123456789abcdef", substr(digits, k, 1))
    return -n - 1
}
