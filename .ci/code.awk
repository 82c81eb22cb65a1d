# The machine code of an archive, from objdump -dr --no-show-raw-insn: for the checks that follow it along every jump and call.
# start[f] is the first instruction of function f; code[i] is instruction i, owner[i] its function, address[i] its address there, and
# place[f, a] the instruction of f at address a; target[i] is the function that i calls, or jumps to at the end of its own.

function die(why) { print check ": " why; dead = 1; exit 1 }

# the instruction of its own function that i may jump to, else 0
function jump(i,    w) {
    split(code[i], w, " ")
    return w[1] ~ /^j/ && !(i in target) && (owner[i], w[2]) in place ? place[owner[i], w[2]] : 0
}

# whether the instruction after i may follow it
function goes_on(i) { return code[i] !~ /^(jmp|ret|ud2)/ }

# whether f is of the C library, and not of the archive
function foreign(f) {
    if (f == "memcpy" || f == "memset") return 1
    if (!(f in start)) die("a call of " f ", which the archive does not have")
    return 0
}

/^[0-9a-f]+ <.*>:$/ {
    name = substr($0, index($0, "<") + 1)
    sub(/>:$/, "", name)
    if ($1 !~ /^0+$/ || name in start) die(name " has no section of its own")
    start[name] = count + 1
}
/^ *[0-9a-f]+:\t/ {
    text = $0
    sub(/^[^\t]*\t/, "", text); sub(/ *#.*/, "", text); gsub(/ +/, " ", text); sub(/ $/, "", text)
    code[++count] = text
    owner[count] = name
    address[count] = substr($1, 1, length($1) - 1)
    place[name, address[count]] = count
}
/R_X86_64_PLT32/ {
    target[count] = $3
    sub(/^\.text\./, "", target[count]); sub(/-0x4$/, "", target[count])
}
