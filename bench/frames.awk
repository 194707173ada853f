# frames.awk: reads `objdump -r` and then `objdump -dr --no-show-raw-insn` of object code and writes, for each function that is called from outside,
# the most stack that a call of it can take, over every path: return addresses, pushed registers, frames, and the red zone under a function that
# uses it. `side` says whose code it is.
#
# The depth of a function is followed from its entry along every jump, those through a table too. A call through a pointer, a function that calls
# itself, a place that is reached at two depths, or a change of the stack pointer that is not understood ends the run. Of a function outside the
# object code only the return address is counted, and it is named.
function fail(why) {
    print "frames: " why >"/dev/stderr"
    failed = 1
    exit 1
}

# The number that hexadecimal digits stand for, and the other way round.
function number(digits,   i, n) {
    sub(/^0x/, "", digits)
    for (i = 1; i <= length(digits); i++) n = 16 * n + index("0123456789abcdef", substr(digits, i, 1)) - 1
    return n + 0
}

function hexadecimal(n) { return sprintf("%x", n) }

# Splits what a relocation names, as .text.f+0x2a, into `symbol` and `addend`.
function split_value(value,   sign) {
    symbol = value
    addend = 0
    if (match(value, /[-+]0x[0-9a-f]+$/)) {
        symbol = substr(value, 1, RSTART - 1)
        sign = substr(value, RSTART, 1) == "-" ? -1 : 1
        addend = sign * number(substr(value, RSTART + 1))
    }
}

/^RELOCATION RECORDS FOR \[/ {
    section = $4
    sub(/^\[/, "", section)
    sub(/\]:$/, "", section)
    next
}

# An entry of a jump table: where it stands, and the place in the code that it names.
section ~ /^\.rodata/ && $2 == "R_X86_64_PC32" {
    split_value($3)
    entry[section, number($1)] = addend
    next
}

/^[0-9a-f]+ <.*>:$/ {
    section = ""
    name = $0
    sub(/^[0-9a-f]+ </, "", name)
    sub(/>:$/, "", name)
    functions[++functions_seen] = name
    next
}

/^ +[0-9a-f]+:\t/ && !section {
    split($0, column, "\t")
    address = column[1]
    gsub(/[ :]/, "", address)
    text[name, ++count[name]] = column[2]
    place[name, address] = count[name]
    next
}

# A relocation below an instruction names the function that it calls or the jump table that it reads.
/: R_X86_64_(PLT32|PC32)\t/ && !section {
    split_value($NF)
    if (symbol ~ /^\.rodata/) {
        table[name, count[name]] = symbol SUBSEP addend + 4
        is_table[symbol, addend + 4] = 1
    } else {
        sub(/^\.text\./, "", symbol)
        goes[name, count[name]] = symbol
    }
}

# The most that a call of the function takes.
function most_of(name,   k, need, most) {
    if (name in known) return known[name]
    if (!(name in count)) {
        outside[name] = 1
        return 8
    }
    if (name in being_followed) fail(name " calls itself")
    being_followed[name] = 1
    follow(name)
    for (k = 1; k <= count[name]; k++)
        if ((name, k) in depth_at && (need = need_at(name, k)) > most) most = need
    return known[name] = most
}

# What instruction k takes: the depth there, and the red zone that it touches or what it calls.
function need_at(name, k,   what, depth) {
    what = text[name, k]
    depth = depth_at[name, k]
    if (what ~ /^call/) return depth + most_of(callee(name, k))
    if (what ~ /^j/ && what !~ /[*]/ && !goal(name, what)) return depth - 8 + most_of(callee(name, k))
    if (match(what, /-0x[0-9a-f]+\(%rsp/)) return depth + number(substr(what, RSTART + 1, RLENGTH - 6))
    return depth + (change(what) > 0 ? change(what) : 0)
}

function callee(name, k,   target) {
    target = text[name, k]
    if (target ~ /^call +[*]/) fail(name " calls through a pointer")
    if ((name, k) in goes) return goes[name, k]
    sub(/.*</, "", target)
    sub(/([+]0x[0-9a-f]+)?>.*/, "", target)
    return target
}

# How much deeper the stack is after an instruction.
function change(what) {
    if (what ~ /^push/) return 8
    if (what ~ /^pop/) return -8
    if (what ~ /^(sub|add) +\$0x[0-9a-f]+,%rsp/) {
        match(what, /0x[0-9a-f]+/)
        return (what ~ /^sub/ ? 1 : -1) * number(substr(what, RSTART, RLENGTH))
    }
    if (what ~ /^lea +-?0x[0-9a-f]+\(%rsp\),%rsp$/) {
        match(what, /0x[0-9a-f]+/)
        return (what ~ /^lea +-/ ? 1 : -1) * number(substr(what, RSTART, RLENGTH))
    }
    if (what ~ /,%rsp$/) fail("the stack pointer is changed by: " what)
    return 0
}

# The place in the function that a jump goes to, or 0 where it goes to another function.
function goal(name, what,   where) {
    where = what
    sub(/.*</, "", where)
    sub(/([+]0x[0-9a-f]+)?>.*/, "", where)
    if (where != name) return 0
    sub(/^j[a-z]+ +/, "", what)
    sub(/ .*/, "", what)
    return place[name, what]
}

# Sets the depth at each instruction of a function that is reached from its entry.
function follow(name,   k, what, after) {
    waiting = 0
    reach(name, 1, 8)
    while (waiting) {
        k = queue[waiting--]
        what = text[name, k]
        after = depth_at[name, k] + change(what)
        if (what ~ /^jmp +[*]/) reach_table(name, k, after)
        else if (what ~ /^j/ && goal(name, what)) reach(name, goal(name, what), after)
        if (what !~ /^(jmp|ret|ud2)/) reach(name, k + 1, after)
    }
}

function reach(name, k, depth) {
    if ((name, k) in depth_at && depth_at[name, k] != depth) fail(name " is at two depths at: " text[name, k])
    if ((name, k) in depth_at) return
    depth_at[name, k] = depth
    queue[++waiting] = k
}

# Reaches the targets in the table that was read last before the jump. An entry is the distance from the table's start.
function reach_table(name, k, depth,   from, at, part) {
    for (from = k; !((name, from) in table); from--) if (from == 1) fail(name " jumps through a pointer")
    split(table[name, from], part, SUBSEP)
    for (at = part[2] + 0; (part[1], at) in entry && (at == part[2] || !((part[1], at) in is_table)); at += 4)
        reach(name, place[name, hexadecimal(entry[part[1], at] - (at - part[2]))], depth)
}

function row(what, octets) { print "frames\t" what "\t" side "\t" octets }

# A row for each function that is called from outside, and one for what stands behind the check of an event.
END {
    if (failed) exit 1
    for (f = 1; f <= functions_seen; f++) {
        what = functions[f]
        if (sub(/^(naustvri|plain)_/, "", what) && what != "version") {
            gsub(/_/, " ", what)
            row(what, most_of(functions[f]))
        }
    }
    if ("route::apply" in known) row("an event behind the check", known["route::apply"])
    for (name in outside) print "frames: only the return address is counted of " name ", which the " side "'s object code does not have" >"/dev/stderr"
}
