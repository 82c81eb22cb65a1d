# The divisions of a position's correction (.ci/divisions.sh, over .ci/code.awk).

function divides(i) { return code[i] ~ /^(v|f|fi|i)?div/ }

# the most divisions on a path through function f, with those of the functions that it calls
function most(f,    todo, n, i, k, d, next_one, before, top) {
    if (foreign(f)) return 0
    if (f in known) return known[f]
    if (f in busy) die("recursion through " f)
    busy[f] = 1
    todo[n = 1] = start[f]
    before[start[f]] = 0
    while (n) {
        i = todo[n--]
        if (owner[i] != f) die(f " runs past its end")
        if (code[i] ~ /^(call|j|loop)/ && !(i in target) && !jump(i)) die(f ": cannot follow " code[i])
        d = before[i] + divides(i) + (i in target ? most(target[i]) : 0)
        if (d > 1000) die(f " divides in a loop")
        if (d > top) top = d
        for (k = 0; k < 2; k++) {
            next_one = k ? jump(i) : goes_on(i) ? i + 1 : 0
            if (next_one && (!(next_one in before) || before[next_one] < d)) before[todo[++n] = next_one] = d
        }
    }
    delete busy[f]
    return known[f] = top + 0
}

# whether instruction i gives all of %rdx, where a division leaves its remainder, a new value without reading it
function overwrites(i,    rest) {
    if (code[i] ~ /^(xor|sub) %edx,%edx$|^(cltd|cqto)$/) return 1
    rest = code[i]
    return (rest ~ /^i?mul[a-z]* [^,]+$/ || rest ~ /^(mov|lea)/ && sub(/,%[er]dx$/, "", rest)) && rest !~ /%([er]?dx|dl|dh)/
}

# puts onto todo[1..n] what is run after function f returns; the new n
function after_return(f, todo, n,    k) {
    for (k in target) if (target[k] == f) {
        if (code[k] ~ /^call/) todo[++n] = k + 1
        else n = after_return(owner[k], todo, n)
    }
    return n
}

# whether the remainder that division i leaves may be read, before something else stands in its place
function remainder_read(i,    todo, n, seen) {
    if (code[i] !~ /^i?div[bwlq]? /) return 0
    todo[n = 1] = i + 1
    while (n) {
        i = todo[n--]
        if (i in seen || overwrites(i)) continue
        seen[i] = 1
        if (code[i] ~ /%([er]?dx|dl|dh)/ || divides(i)) return 1
        if (i in target) {
            if (foreign(target[i])) return 1
            todo[++n] = start[target[i]]
            if (code[i] ~ /^call/) continue
        }
        if (code[i] == "ret") n = after_return(owner[i], todo, n)
        if (jump(i)) todo[++n] = jump(i)
        if (goes_on(i)) todo[++n] = i + 1
    }
    return 0
}

END {
    axes = 3
    if (dead) exit 1
    if (!("gantry_correction" in start)) die("the archive has no gantry_correction")
    top = most("gantry_correction")
    for (i = 1; i <= count; i++) if (divides(i)) {
        wrong = (owner[i] in known ? "" : ", which gantry_correction does not reach") (remainder_read(i) ? ", and its remainder may be read" : "")
        print "divisions: " code[i] " at " address[i] " of " owner[i] wrong
        all++
        if (wrong) bad++
    }
    print "divisions: " all + 0 " in the archive; gantry_correction takes at most " top " of them, for " axes " axes"
    exit top != axes || bad
}
