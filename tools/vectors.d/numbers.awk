# Numbers as strings of binary digits with an exponent, and their bit patterns. Exact, in any awk: no arithmetic on more than 31 digits.

# The constants of one of the two formats.
function choose(bits) {
    width = bits
    fraction = bits == 64 ? 52 : 23
    bias = bits == 64 ? 1023 : 127
}

# A number is kept as its sign, "" or "-", its digits without leading and trailing zeros ("" is zero), and the exponent of the last digit.
function keep(minus, digits, exponent) {
    while (substr(digits, 1, 1) == "0") digits = substr(digits, 2)
    while (digits ~ /0$/) {
        digits = substr(digits, 1, length(digits) - 1)
        exponent++
    }
    number_sign = minus
    number_digits = digits
    number_exponent = exponent
}

# 0x1.4p-3, as glibc writes the numbers of its lists.
function read_hex(text,    minus, exponent, digits, i, place) {
    if (text !~ /^-?0x[0-9a-f]+(\.[0-9a-f]+)?p[-+]?[0-9]+$/) return 0
    minus = sub(/^-/, "", text) ? "-" : ""
    place = index(text, "p")
    exponent = substr(text, place + 1) + 0
    text = substr(text, 3, place - 3)
    place = index(text, ".")
    if (place) {
        exponent -= 4 * (length(text) - place)
        text = substr(text, 1, place - 1) substr(text, place + 1)
    }
    for (i = 1; i <= length(text); i++) digits = digits bits_of(index("0123456789abcdef", substr(text, i, 1)) - 1, 4)
    keep(minus, digits, exponent)
    return 1
}

# A decimal number, rounded to the format as a C compiler rounds it.
function read_decimal(text,    minus, whole, part, digits, exponent, i, carry, doubled, places) {
    if (text !~ /^-?[0-9]+(\.[0-9]+)?L?$/) return 0
    minus = sub(/^-/, "", text) ? "-" : ""
    sub(/L$/, "", text)
    whole = text
    sub(/\..*/, "", whole)
    part = text
    if (!sub(/^[0-9]*\./, "", part)) part = ""
    digits = bits_of(whole + 0, 31)
    sub(/^0*/, "", digits)
    # Doubling the part below the point gives the next digit; a last one stands for all that is left.
    while (part ~ /[1-9]/ && places < 300) {
        carry = 0
        doubled = ""
        for (i = length(part); i > 0; i--) {
            carry += 2 * substr(part, i, 1)
            doubled = carry % 10 doubled
            carry = int(carry / 10)
        }
        part = doubled
        digits = digits carry
        places++
    }
    if (part ~ /[1-9]/) {
        digits = digits "1"
        places++
    }
    keep(minus, digits, -places)
    round()
    return 1
}

# To the digits of a significand, to nearest, ties to even.
function round(    extra, rest, kept, i) {
    extra = length(number_digits) - fraction - 1
    if (extra <= 0) return
    kept = substr(number_digits, 1, fraction + 1)
    rest = substr(number_digits, fraction + 2)
    if (rest > "1" || (rest == "1" && kept ~ /1$/)) {
        i = length(kept)
        while (i > 0 && substr(kept, i, 1) == "1") i--
        kept = i ? substr(kept, 1, i - 1) "1" zeros(length(kept) - i) : "1" zeros(length(kept))
        if (!i) extra++
    }
    keep(number_sign, kept, number_exponent + extra)
}

# The pattern of the number at hand; nothing where the format does not have it.
function pattern(    top, field, part, shift) {
    if (number_digits == "") return to_hex((number_sign ? "1" : "0") zeros(width - 1))
    top = number_exponent + length(number_digits) - 1
    if (top > bias || length(number_digits) > fraction + 1) return ""
    if (top >= 1 - bias) {
        field = top + bias
        part = substr(number_digits, 2)
        part = part zeros(fraction - length(part))
    } else {
        shift = number_exponent + bias - 1 + fraction
        if (shift < 0) return ""
        part = number_digits zeros(shift)
        part = zeros(fraction - length(part)) part
    }
    return to_hex((number_sign ? "1" : "0") bits_of(field, width - 1 - fraction) part)
}

function zeros(count,    text) {
    while (count-- > 0) text = text "0"
    return text
}
function bits_of(value, count,    text) {
    while (count-- > 0) {
        text = value % 2 text
        value = int(value / 2)
    }
    return text
}
function to_hex(digits,    text, i) {
    for (i = 1; i <= length(digits); i += 4)
        text = text substr("0123456789abcdef", 1 + 8 * substr(digits, i, 1) + 4 * substr(digits, i + 1, 1) + 2 * substr(digits, i + 2, 1) + substr(digits, i + 3, 1), 1)
    return text
}
