# frames-thumb.awk: the instructions of Thumb-2 for frames.awk, as GNU objdump writes them.
BEGIN {
    entry = 0 # the return address is in a register
    comment = "[ \t]*[@;].*$"
    padding = "^(nop|udf|\\.)"
    when = "(eq|ne|cs|cc|mi|pl|vs|vc|hi|ls|ge|lt|gt|le)"
}
function step(op, args, to, rest) {
    sub(/\.[nw]$/, "", op)
    # what is left beside a place on the stack
    rest = args
    sub(/\[sp(, #[0-9]+|, [a-z0-9]+(, lsl #[0-9]+)?)?\]$/, "", rest)
    if (op ~ /^v?push$/ || op ~ /^v?stmdb$/ && args ~ /^sp!, /) down(registers(args))
    else if (op ~ "^v?pop" when "?$" || op ~ "^v?ldm(ia)?" when "?$" && args ~ /^sp!, /) up(registers(args), args ~ /pc}$/, op ~ when "$")
    else if (op ~ /^(add|sub)w?$/ && args ~ /^sp, (sp, )?#[0-9]+$/) down(op ~ /^sub/ ? number(args) : -number(args))
    else if (op ~ /^strd?$/ && args ~ /\[sp, #-[0-9]+\]!$/) down(number(args))
    else if (op ~ "^ldrd?" when "?$" && args ~ /\[sp\], #[0-9]+$/) up(number(args), args ~ /^pc,/, op ~ when "$")
    else if (op ~ "^bx" when "?$" && args == "lr") up(0, 1, op ~ when "$")
    else if (op ~ "^bl" when "?$") call(to == "" ? named(args) : opened(args, to))
    else if (op ~ "^b" when "?$" || op ~ /^cbn?z$/) {
        sub(/^r[0-7], /, "", args)
        jump(args, opened(args, to))
        if (op == "b") ends = 1
    } else if (op ~ /^tb[bh]$/ && args ~ /^\[pc, /) by_table(op == "tbb" ? 1 : 2)
    else if (op == "udf") ends = 1
    else if (op ~ "^(tb[bh]|b(x|lx|xj|xns|lxns)" when "?)$" || rest ~ /^pc(,|$)|pc}$/) wrong("leads to what isn't known")
    else if (op ~ /^(\.|bkpt|svc|msr|cps)|push|pop/) wrong("isn't understood")
    else if (rest ~ /(^|[^a-z0-9])sp([^a-z0-9]|$)/) {
        # it may be read, and what lies there loaded and stored
        if (!(op ~ "^(mov|addw?)" when "?$" && rest ~ /^(r[0-9]+|sl|fp|ip|lr), sp(, .*)?$/) && !(op ~ /^(ld|st)mia$/ && rest ~ /^sp, \{[^}]*\}$/))
            wrong("what becomes of the stack pointer isn't understood")
    } else if (to != "" && to !~ /^\.(rodata|L)/) wrong("keeps the address of " to)
}
# The stack pointer rises by n bytes; with the program counter loaded from there, or from its register, it returns. Under a condition it may do that
# alone.
function up(n, returns, conditional) {
    if (returns) {
        depth -= n
        leave()
        depth += n
        if (conditional) ends = 0
    } else if (conditional) wrong("moves the stack pointer, or doesn't")
    else down(-n)
}
# the bytes of a list of registers
function registers(list, n, name, k, last, sum) {
    gsub(/.*\{|\}/, "", list)
    n = split(list, name, ", ")
    sum = 0
    for (k = 1; k <= n; k++) {
        if (name[k] !~ /^([rds][0-9]+|d[0-9]+-d[0-9]+|s[0-9]+-s[0-9]+|sl|fp|ip|lr|pc)$/) wrong("its registers aren't understood")
        last = name[k]
        sub(/.*-./, "", last)
        sum += (name[k] ~ /-/ ? last - substr(name[k], 2) + 1 : 1) * (name[k] ~ /^d/ ? 8 : 4)
    }
    return sum
}
# the last number
function number(args) { gsub(/.*#-?|\]!$/, "", args); return args + 0 }
# the function whose address is open in a call or a jump: 0 <...> is its start
function opened(args, to) {
    if (to != "" && args !~ /^0 </) wrong("leads into another function")
    sub(/^\.text\./, "", to)
    return to
}
# A jump by a table: the data behind it, bytes or pairs of bytes, each half the way from there to a place. Behind the last there may be a byte that makes
# them even, and instructions that do nothing, 0xbf00.
function by_table(width, list, digits, k, n, way) {
    for (k = i + 1; of[k] == f && line[k] ~ /^\.(byte|short|word) 0x[0-9a-f]+$/; k++) {
        digits = line[k]
        sub(/.*0x/, "", digits)
        # the least byte first
        for (n = length(digits) - 1; 1 <= n; n -= 2) list = list substr(digits, n, 2)
    }
    sub(/(00bf)+$/, "", list)
    if (length(list) < 2 * width) wrong("no table is behind it")
    for (n = 1; n < length(list); n += 2 * width) {
        way = hex(substr(list, n, 2)) + (width == 2 ? 256 * hex(substr(list, n + 2, 2)) : 0)
        if (way || width == 2 || n + 1 < length(list)) go(at[i] + 4 + 2 * way)
    }
    ends = 1
}
