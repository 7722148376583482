# A listing with labels: each branch that stays in the code names its target, and so does the entry.
#     ./alpha dis FILE | awk -f examples/labels.awk
# The source that it writes assembles to the same image.
function number(text,    value, n) {
    if (text !~ /^0x/) return text + 0
    for (n = 3; n <= length(text); n++)
        value = 16 * value + index("0123456789abcdef", substr(text, n, 1)) - 1
    return value
}
function label(address) { return sprintf("L_%x", address) }
$1 == ".codebase" { base = number($2) }
$1 == ".entry" { entry = number($2) }
$1 == ".data" || $1 == ".segment" { if (inside) last = NR; inside = 0 }
{ line[NR] = $0; if (inside) address[NR] = base + 4 * words++ }
$1 == ".code" { inside = 1 }
END {
    if (inside) last = NR + 1
    ends = base + 4 * words
    wanted[entry] = 1
    for (n in address) {
        if (match(line[n], /\.[+-][0-9]+$/)) {
            to = address[n] + substr(line[n], RSTART + 1)
            if (to >= base && to <= ends) {
                line[n] = substr(line[n], 1, RSTART - 1) label(to)
                wanted[to] = 1
            }
        }
    }
    for (n = 1; n <= NR; n++) {
        if (n == last && ends in wanted) print label(ends) ":"
        if (line[n] ~ /^\.entry /) print ".entry " label(entry)
        else if (n in address && address[n] in wanted) print label(address[n]) ": " line[n]
        else print line[n]
    }
    if (last == NR + 1 && ends in wanted) print label(ends) ":"
}
