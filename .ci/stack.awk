# The most stack that each call of the archive takes (.ci/stack.sh, over .ci/code.awk).

function hex(s,    v, i) {
    sub(/^\$0x/, "", s)
    if (s ~ /^ffffffff/ && length(s) == 16) return hex(substr(s, 9)) - 2 ^ 32
    for (i = 1; i <= length(s); i++) v = 16 * v + index("0123456789abcdef", substr(s, i, 1)) - 1
    return v
}

# the bytes that a loop at instruction i lowers the stack pointer by, at most a page at a time, down to r11; 0 where there is none
function probed(i,    w, step) {
    if (code[i] != "mov %rsp,%r11" || code[i + 1] !~ /^sub \$0x[0-9a-f]+,%r11$/ || code[i + 2] !~ /^sub \$0x[0-9a-f]+,%rsp$/ ||
        code[i + 3] != "movq $0x0,(%rsp)" || code[i + 4] != "cmp %r11,%rsp" || code[i + 5] !~ "^jne " address[i + 2] " ") return 0
    split(code[i + 2], w, /[ ,]/)
    step = hex(w[2])
    split(code[i + 1], w, /[ ,]/)
    return step > 0 && step <= 4096 && hex(w[2]) % step == 0 ? hex(w[2]) : 0
}

# the most bytes that function f takes below the stack pointer it is entered with
function bytes(f,    todo, n, i, d, w, ends, below, most, depth) {
    if (foreign(f)) return 0
    if (f in known) return known[f]
    if (f in busy) die("recursion through " f)
    busy[f] = 1
    todo[n = 1] = start[f] " 0"
    while (n) {
        split(todo[n--], w, " ")
        d = w[2]
        ends = 0
        for (i = w[1]; !ends; i++) {
            if (owner[i] != f) die(f " runs past its end")
            if (i in depth) {
                if (depth[i] != d) die(f " has two depths at " address[i])
                break
            }
            depth[i] = d
            ends = !goes_on(i)
            split(code[i], w, /[ ,]/)
            below = code[i] ~ /-0x[0-9a-f]+\(%rsp/ ? 128 : 0 # the red zone, at its largest
            if (probed(i)) { d += probed(i); i += 5 }
            else if (w[1] == "push") d += 8
            else if (w[1] == "pop" && w[2] != "%rsp") d -= 8
            else if (code[i] ~ /^sub \$0x[0-9a-f]+,%rsp$/) d += hex(w[2])
            else if (code[i] ~ /^add \$0x[0-9a-f]+,%rsp$/) d -= hex(w[2])
            else if (w[1] == "call" && i in target) below = 8 + bytes(target[i])
            else if (w[1] ~ /^j/ && i in target) below = bytes(target[i])
            else if (jump(i)) todo[++n] = jump(i) " " d
            else if (code[i] == "ret") { if (d) die(f " returns at depth " d) }
            else if (code[i] ~ /call|jmp|ret|^j|^loop|^enter|^leave|^xchg %rsp|^(push|pop)[^c]|[ ,]%(rsp|esp|sp|spl)$/ &&
                code[i] !~ /^(cmp|test) /) die(f ": cannot follow " code[i])
            if (d + below > most) most = d + below
        }
    }
    delete busy[f]
    return known[f] = most
}

END {
    if (dead) exit 1
    for (name in start) if (name ~ /^gantry_/) {
        own = 8 + bytes(name) # and the return address
        printf "stack: %-21s %6d bytes\n", name, own | "sort"
        if (own + library >= limit) over = over " " name
        calls++
    }
    close("sort")
    print "stack: " calls + 0 " of 16 calls; with " library " for the C library " (over ? "not below " limit ":" over : "all below " limit)
    exit over || calls != 16
}
