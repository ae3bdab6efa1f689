# Reads what `objdump -tdr --no-show-raw-insn` prints of an object and prints a line for each of its functions: name, own frame, deepest stack, and the way there.
# A frame counts the return address that the call of the function leaves, and what is used below its end. A C library function counts nothing but its return address.
# The stack is followed along every path of a function; an instruction that moves it in a way not known here ends the run with an error.

function fail(f, i, what) {
    print "bench/stack: " name[f] " at " place[f, i] ": " what ": " text[f, i] > "/dev/stderr"
    failed = 1
    exit 1
}

# the number of 0x.., also one below zero
function number(hex, n, i, below) {
    sub(/^0x/, "", hex)
    below = length(hex) == 16 && hex ~ /^f/
    for (i = 1; i <= length(hex); i++)
        n = n * 16 + (below ? 15 - digit(substr(hex, i, 1)) : digit(substr(hex, i, 1)))
    return below ? -n - 1 : n + 0
}
function digit(c) { return index("0123456789abcdef", c) - 1 }
function short(hex) { sub(/^0+/, "", hex); return hex == "" ? "0" : hex }

# what is reached at this depth next; a place is reached at one depth only
function reach(f, i, d) {
    if (i > count[f]) fail(f, i - 1, "the code runs past its end")
    if ((f, i) in depth) {
        if (depth[f, i] != d) fail(f, i, "reached at " depth[f, i] " and at " d " bytes")
        return
    }
    depth[f, i] = d
    todo[++left] = i
}

function move(f, d) {
    if (d > own[f]) own[f] = d
    return d
}

function callee(f, i, d, at, key, to) {
    to = told[f, i]
    if (to == "") { # a call of the function's own section
        split(text[f, i], at, " ")
        key = section[f] ":" short(at[2])
    } else {
        sub(/[-+]0x[0-9a-f]+$/, "", to)
        key = to in symbol ? symbol[to] : to ":0"
        if (!(key in start)) {
            if (to ~ /^\.text/) fail(f, i, "no function is there")
            outside[to] = 1
            key = ""
        }
    }
    calls[f, ++calling[f]] = key
    below[f, calling[f]] = d
}

function follow(f, i, t, d, at) {
    left = jumped = probing = end = 0
    reach(f, 1, 8)
    own[f] = 8
    while (1) {
        if (left == 0) {
            # the places that a table of jumps leads to are reached at the depth of the jump
            if (!jumped) break
            for (i = 1; i <= count[f] && (f, i) in depth; i++);
            if (i > count[f]) break
            reach(f, i, jumped)
            continue
        }
        i = todo[left--]
        d = depth[f, i]
        t = text[f, i]
        # a function that calls nothing may use 128 bytes below the stack's end
        if (match(t, /-0x[0-9a-f]+\(%rsp/)) move(f, d + number(substr(t, RSTART + 1, RLENGTH - 6)))
        if (t ~ /^ret/ && d != 8) fail(f, i, "returns with " d - 8 " bytes")
        if (t ~ /^(ret|ud2|hlt)/) continue
        if (t ~ /^push/) d = move(f, d + 8)
        else if (t ~ /^pop/) d -= 8
        else if (t ~ /^call/) {
            if (t ~ /\*/) fail(f, i, "a call through a pointer")
            callee(f, i, d)
        } else if (t ~ /^(notrack )?jmp +\*/) {
            if (jumped && jumped != d) fail(f, i, "two tables of jumps at two depths")
            jumped = d
            continue
        } else if (t ~ /^j/) {
            split(t, at, " ")
            if (told[f, i] != "") callee(f, i, d - 8)
            else if (!((f, at[2]) in index_of)) fail(f, i, "jumps to no instruction")
            else if (!(probing && index_of[f, at[2]] <= i)) reach(f, index_of[f, at[2]], d)
            probing = 0
            if (t ~ /^jmp/) continue
        } else if (t ~ /^sub +\$0x[0-9a-f]+,%rsp$/) {
            match(t, /0x[0-9a-f]+/)
            d = move(f, d + number(substr(t, RSTART, RLENGTH)))
        } else if (t ~ /^add +\$0x[0-9a-f]+,%rsp$/) {
            match(t, /0x[0-9a-f]+/)
            d = move(f, d - number(substr(t, RSTART, RLENGTH)))
        } else if (t ~ /^mov +%rsp,%r11$/) {
            # a large frame is taken page by page in a loop, up to r11
            end = d
        } else if (t ~ /^sub +\$0x[0-9a-f]+,%r11$/) {
            match(t, /0x[0-9a-f]+/)
            end += number(substr(t, RSTART, RLENGTH))
        } else if (t ~ /^cmp +%r11,%rsp$/) {
            if (end <= d - 4096) fail(f, i, "a loop up to no known place")
            d = move(f, end)
            probing = 1
        } else if (t ~ /^leave|,%rsp$|,%esp$|^mov +%rsp,%rbp$/ && t !~ /^(cmp|test)/) fail(f, i, "moves the stack")
        reach(f, i + 1, d)
    }
}

function deepest(f, k, d, g) {
    if (f in done) return done[f]
    if (f in under) {
        print "bench/stack: " name[f] " calls itself" > "/dev/stderr"
        failed = 1
        exit 1
    }
    under[f] = 1
    d = own[f]
    way[f] = ""
    for (k = 1; k <= calling[f]; k++) {
        g = calls[f, k] == "" ? 8 : deepest(start[calls[f, k]])
        if (below[f, k] + g > d) {
            d = below[f, k] + g
            way[f] = calls[f, k] == "" ? "" : " " name[start[calls[f, k]]] way[start[calls[f, k]]]
        }
    }
    delete under[f]
    return done[f] = d
}

/^SYMBOL TABLE/ { table = 1; next }
/^Disassembly of section/ { table = 0; now = substr($4, 1, length($4) - 1); next }
table && split($0, half, "\t") == 2 {
    n = split(half[1], left_words, " ")
    m = split(half[2], right_words, " ")
    if (left_words[n] ~ /^\.text/ && right_words[m] !~ /^\.text/) symbol[right_words[m]] = left_words[n] ":" short(left_words[1])
    next
}
/^[0-9a-f]+ <.*>:$/ {
    f = ++functions
    name[f] = substr($2, 2, length($2) - 3)
    section[f] = now
    start[now ":" short($1)] = f
    next
}
/^ *[0-9a-f]+:\t/ {
    split($0, half, "\t")
    at = half[1]
    gsub(/[ :]/, "", at)
    i = ++count[f]
    place[f, i] = at
    index_of[f, at] = i
    text[f, i] = half[2]
    sub(/ +$/, "", text[f, i])
    next
}
/R_X86_64_/ {
    if (text[f, count[f]] ~ /^(call|j)/) told[f, count[f]] = $3
}

END {
    if (failed) exit 1
    for (f = 1; f <= functions; f++) {
        # what stands after the last jump or return is filling
        while (text[f, count[f]] ~ /^(nop|cs nop|xchg +%ax,%ax|data16|int3)/) count[f]--
        follow(f)
    }
    for (s in symbol) if (symbol[s] in start) {
        f = start[symbol[s]]
        print s, own[f], deepest(f) way[f]
    }
    for (o in outside) print "outside", o
}
