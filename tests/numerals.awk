# Writes lines with ISO C's hexadecimal numerals in the place of bit patterns, by the fields of IEEE 754's formats: the form that ./pk --hex takes and gives.
# A line of another operation than on patterns is left out, and so is one with a NaN operand other than the canonical one, which no numeral says. POSIX awk.
function value(digits,    i, v) {
    for (i = 1; i <= length(digits); i++) v = 16 * v + index("0123456789abcdef", substr(digits, i, 1)) - 1
    return v
}
function spelt(minus, field, fraction, bias) {
    sub(/0+$/, "", fraction)
    if (field == 2 * bias + 1) return fraction != "" ? "nan" : minus "inf"
    if (field == 0 && fraction == "") return minus "0x0p+0"
    return minus "0x" (field > 0) (fraction != "" ? "." fraction : "") sprintf("p%+d", (field > 0 ? field : 1) - bias)
}
# The last bits of a word of 32, which are no whole digits, are shifted up by one.
function numeral(word,    top) {
    if (length(word) == 16) {
        top = value(substr(word, 1, 3))
        return spelt(top >= 2048 ? "-" : "", top % 2048, substr(word, 4), 1023)
    }
    top = value(word)
    return spelt(top >= 2147483648 ? "-" : "", int(top / 8388608) % 256, sprintf("%06x", top % 8388608 * 2), 127)
}
function is_pattern(i) { return length($i) == digits && $i !~ /[^0-9a-f]/ && !(i == 3 && $1 ~ /^scalbn/) }

{
    digits = $1 ~ /64/ ? 16 : $1 ~ /32/ ? 8 : 0
    if (!digits || $1 !~ /^[a-z]/ || $1 ~ /^(reduce|list|read|write)/) next
    for (i = 2; i <= NF; i++) {
        if ($i == "->") answer = NR
        if (!is_pattern(i)) continue
        text = numeral($i)
        if (text == "nan" && answer != NR && $i !~ /^7f(f8|c0)0*$/) next
        $i = text
    }
    print
}
