# From `objdump -d --no-show-raw-insn`: the address of the first instruction of each basic block. A block begins a function,
# follows a jump or a return, or is jumped to. What only fills up to the next function is none.
/^[0-9a-f]+ </ { begins = 1; next }
$1 ~ /^[0-9a-f]+:$/ {
    address = substr($1, 1, length($1) - 1)
    is_instruction[address] = 1
    word = ($2 == "bnd" || $2 == "notrack") ? $3 : $2
    target = ($2 == "bnd" || $2 == "notrack") ? $4 : $3
    fills = word ~ /^(int3|nop|nopw|nopl|data16|cs|xchg)$/
    if (begins && !fills) { is_first[address] = 1; begins = 0 }
    if (word ~ /^j/ && target ~ /^[0-9a-f]+$/) is_first[target] = 1
    if (word ~ /^(j|ret|ud2|hlt)/) begins = 1
}
END { for (address in is_first) if (address in is_instruction) print address }
