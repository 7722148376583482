# The line of a source whose instruction stands at the address `at`. The code base is 0x10000, or `base`:
#     awk -f examples/line-of.awk -v at=0x10014 FILE
#     awk -f examples/line-of.awk -v base=0x12000 -v at=0x12014 FILE
function hexadecimal(text,    value, n) {
    text = tolower(text)
    for (n = 3; n <= length(text); n++)
        value = 16 * value + index("0123456789abcdef", substr(text, n, 1)) - 1
    return value
}
BEGIN { wanted = (hexadecimal(at) - hexadecimal(base == "" ? "0x10000" : base)) / 4 }
{
    statement = $0
    sub(/#.*/, "", statement)
    sub(/^[ \t]*[A-Za-z_][A-Za-z0-9_.]*:/, "", statement)
    if (statement ~ /^[ \t]*[a-z]/ && wanted-- == 0) print FILENAME ":" NR ": " $0
}
