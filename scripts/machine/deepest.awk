# The deepest path of calls, from what the awk program of a processor told of its machine code, a line each:
#   function NAME   the lines up to the next are of this function
#   takes N         bytes of stack; a function takes the sum
#   below N         it uses N bytes below the stack pointer
#   calls NAME
#   vector ..       an instruction with a vector or floating point register
#   odd ..          an instruction that the archive must not have, or that is not understood
# Prints the bytes of the deepest path, its exported function, the instructions that reach below the stack pointer, and
# those with vector registers. `outside` is what a call of memcpy, memmove or memset takes before these take their own.
function refuse(why) { if (!refused) print why; refused = 1; exit 1 }
function deep(name,    called, n, i, most) {
    if (name ~ /^mem(cpy|move|set)$/) return outside
    if (!(name in frame)) refuse("a call of " name)
    if (name in open) refuse("recursion through " name)
    open[name]
    most = below[name]
    n = split(calls[name], called, " ")
    for (i = 1; i <= n; i++) if (deep(called[i]) > most) most = deep(called[i])
    delete open[name]
    return frame[name] + most
}
$1 == "function" { name = $2; frame[name] = below[name] = 0 }
$1 == "takes" { frame[name] += $2 }
$1 == "below" { red++; if ($2 > below[name]) below[name] = $2 }
$1 == "calls" { calls[name] = calls[name] " " $2 }
$1 == "vector" { vectors++ }
$1 == "odd" { refuse("in " name " is" substr($0, 4)) }
END {
    if (refused) exit 1
    for (name in frame) if (name ~ /^kajurnat_/ && deep(name) > most) { most = deep(name); where = name }
    if (!refused) print most, where, red + 0, vectors + 0
}
