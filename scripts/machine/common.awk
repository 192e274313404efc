# What the processors share: hexadecimal numbers, the first lines of functions, the names that are called.
function hex(text,    i, n) {
    sub(/^-?0x/, "", text)
    for (i = 1; i <= length(text); i++) n = 16 * n + index("0123456789abcdef", substr(text, i, 1)) - 1
    return n + 0
}
function called(text) { sub(/^\.text\./, "", text); sub(/[+-]0x[0-9a-f]+$/, "", text); return text }
# Labels within a function have names that start with .L
/^[0-9a-f]+ <[^.].*>:$/ { print "function", substr($0, index($0, "<") + 1, length($0) - index($0, "<") - 2); started = 1 }
