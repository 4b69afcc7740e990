# glibc's tests of sqrt, fma and scalbn, with their flags, as lines of docs/LINES.md: in nearest mode or, if attributes is set, in all four modes, as attributes. Read after numbers.awk and
# marks.awk. The computed lists (auto-libm-test-out-*) name format and rounding mode in each line; the written ones (libm-test-*.inc) hold for every format and use names for its limits.

BEGIN {
    nameCount = split("sqrt64 sqrt32 fma64 fma32 scalbn64 scalbn32", names, " ")
    # The modes are in the order of a written vector's answers.
    modeCount = split("downward tonearest towardzero upward", modeAt, " ")
    split("down even zero up", attributeAt, " ")
    for (i = 1; i <= modeCount; i++) modeOf[modeAt[i]] = i
    inMode["plus_oflow"] = "max_value plus_infty max_value plus_infty"
    inMode["minus_oflow"] = "minus_infty minus_infty -max_value -max_value"
    inMode["plus_uflow"] = "plus_zero plus_zero plus_zero min_subnorm_value"
    inMode["minus_uflow"] = "-min_subnorm_value minus_zero minus_zero minus_zero"
}

function wrong(what) {
    print FILENAME ":" FNR ": error: " what > "/dev/stderr"
    failed = 1
    exit 1
}

# The pattern of a value of the lists: a number, a name, or a name by a power of two or a short fraction.
function value_of(text,    minus, by, digits, exponent) {
    gsub(/ /, "", text)
    if (read_hex(text) || read_decimal(text)) return pattern()
    minus = sub(/^-/, "", text) ? "-" : ""
    if (text == "qnan_value") return special(minus, "1" zeros(fraction - 1))
    if (text == "snan_value") return special(minus, "01" zeros(fraction - 2))
    if (text ~ /^(plus|minus)_infty$/) return special(text ~ /^m/ ? "-" : "", zeros(fraction))
    if (text ~ /^(plus|minus)_zero$/) {
        keep(text ~ /^m/ ? "-" : "", "", 0)
        return pattern()
    }
    by = text
    sub(/[*\/].*/, "", text)
    if (text == "min_value") keep(minus, "1", 1 - bias)
    else if (text == "min_subnorm_value") keep(minus, "1", 1 - bias - fraction)
    else if (text == "max_value") {
        digits = bits_of(1, 1)
        while (length(digits) <= fraction) digits = digits "1"
        keep(minus, digits, bias - fraction)
    } else return ""
    if (by == text) return pattern()
    return scaled(substr(by, length(text) + 1))
}
function special(minus, part) { return to_hex((minus ? "1" : "0") bits_of(2 * bias + 1, width - 1 - fraction) part) }

# The number at hand, divided by a power of two or multiplied by a number: one of the two factors is a power of two.
function scaled(by,    minus, digits, exponent) {
    minus = number_sign
    digits = number_digits
    exponent = number_exponent
    if (by ~ /^\/[24]$/) exponent -= by == "/4" ? 2 : 1
    else if (by ~ /^\*/ && (read_hex(substr(by, 2)) || read_decimal(substr(by, 2)))) {
        if (digits != "1") return ""
        digits = number_digits
        exponent += number_exponent
    } else return ""
    keep(minus, digits, exponent)
    return pattern()
}

function power_of(text,    minus) {
    gsub(/ /, "", text)
    sub(/L$/, "", text)
    if (text == "INT_MAX") return "2147483647"
    if (text == "INT_MIN") return "-2147483648"
    if (text ~ /^-?[0-9]+$/) return text + 0
    if (text !~ /^-?MANT_DIG([-+]1)?$/) return ""
    minus = text ~ /^-/ ? -1 : 1
    return minus * (fraction + 1) + (text ~ /\+1$/ ? 1 : text ~ /[A-Z]-1$/ ? -1 : 0)
}

# All modes are asked for, or nearest alone, whose lines name no attribute.
function is_asked(mode) { return attributes || modeAt[mode] == "tonearest" }

# One line, with its answer; the same request may stand in two lists. A vector that leaves something open, or that is expected to fail, is left out.
function take(operation, mode, operands, answer,    line) {
    operation = operation width
    found[operation, mode]++
    if (isTinyBefore) before[operation]++
    if (answer == "IGNORE") leave_out("answer")
    if (reason != "") {
        leftOut[operation " " reason]++
        return
    }
    line = operation (attributes ? "." attributeAt[mode] : "") " " operands " -> " (attributes ? "0 " : "") answer_of(answer, mode) " " flags_text()
    if (line in seen) return
    seen[line] = 1
    taken[operation, mode]++
    lines[++last] = line
}
function needed(text, what, from) {
    if (text == "") wrong("no " what " that is understood: " from)
    return text
}
# A NaN of any sign and payload counts as the canonical one, as in all answers here. What overflows or underflows is another number in each mode.
function answer_of(text, mode,    word, byMode) {
    if (text in inMode) {
        split(inMode[text], byMode, " ")
        text = byMode[mode]
    }
    word = needed(value_of(text), "answer", text)
    return text ~ /nan/ ? special("", "1" zeros(fraction - 1)) : word
}

# = fma tonearest binary64 X Y Z : R : flags
$1 == "=" && ($4 == "binary64" || $4 == "binary32") {
    if (!($3 in modeOf)) wrong("no mode that is understood: " $3)
    if (!is_asked(modeOf[$3])) next
    choose(substr($4, 7) + 0)
    operands = ""
    for (i = 5; $i != ":" && i < NF; i++) operands = operands (i > 5 ? " " : "") needed(value_of($i), "operand", $i)
    answer = $(i + 1)
    if ($(i + 2) != ":") wrong("no flags after the answer")
    text = $0
    sub(/^[^:]*:[^:]*:/, "", text)
    clear_marks()
    read_words(text)
    take($2, modeOf[$3], operands, answer)
    next
}

# TEST_fi_f (scalbn, X, N, R, flags), or four answers with flags.
/^ *TEST_(f|fi|fff)_f \(/ {
    text = $0
    shape = $1
    sub(/^[^(]*\(/, "", text)
    sub(/\),? *$/, "", text)
    count = split(text, parts, / *, */)
    inputs = shape == "TEST_fff_f" ? 3 : shape == "TEST_fi_f" ? 2 : 1
    if (count != inputs + 3 && count != inputs + 9) wrong("neither one answer nor four: " text)
    for (bits = 64; bits >= 32; bits -= 32) {
        choose(bits)
        operands = needed(value_of(parts[2]), "operand", parts[2])
        if (inputs == 3) operands = operands " " needed(value_of(parts[3]), "operand", parts[3]) " " needed(value_of(parts[4]), "operand", parts[4])
        if (inputs == 2) operands = operands " " needed(power_of(parts[3]), "power", parts[3])
        for (mode = 1; mode <= modeCount; mode++) {
            if (!is_asked(mode)) continue
            at = inputs + 2 + (count == inputs + 9 ? 2 * (mode - 1) : 0)
            clear_marks()
            read_macros(parts[at + 1])
            take(parts[1], mode, operands, parts[at])
        }
    }
    next
}
/^ *TEST_/ { wrong("no vector that is understood: " $0) }

# COUNT NAME, .. for the names that a list of counts has
function told(list, after,    i, text) {
    for (i = 1; i <= nameCount; i++) if ((names[i] after) in list) text = text (text == "" ? "" : ", ") list[names[i] after] " " names[i]
    return text
}
# What was left out, by reason: a flag that is left open is named, and the other reasons stand where there are any.
function left_out(    i, flag, text) {
    for (i = 1; i <= flagCount; i++) {
        flag = told(leftOut, " " flagAt[i])
        if (flag != "") text = text (text == "" ? "" : "; ") flagAt[i] " " flag
    }
    text = "left out, as they leave a flag open: " (text == "" ? "none" : text)
    if (told(leftOut, " sign") != "") text = text "; the sign of a zero or an infinity: " told(leftOut, " sign")
    if (told(leftOut, " answer") != "") text = text "; the answer: " told(leftOut, " answer")
    if (told(leftOut, " failing") != "") text = text "; as they are expected to fail: " told(leftOut, " failing")
    return text
}
# TAKEN of FOUND NAME. Each mode has vectors, as many as nearest mode.
function counts_of(name,    mode, all, left) {
    for (mode = 1; mode <= modeCount; mode++) {
        if (!is_asked(mode)) continue
        if (!taken[name, mode]) wrong("no line of " name ", " modeAt[mode])
        if (found[name, mode] != found[name, modeOf["tonearest"]]) wrong(found[name, mode] " vectors of " name ", " modeAt[mode] ", and " found[name, modeOf["tonearest"]] ", tonearest")
        all += found[name, mode]
        left += taken[name, mode]
    }
    return left " of " all " " name
}

END {
    if (failed) exit 1
    for (i = 1; i <= nameCount; i++) counts = counts (i > 1 ? ", " : "") counts_of(names[i])
    left = left_out()
    print "# Published test vectors for correctly rounded operations: the GNU C Library 2.36 (LGPL 2.1 or later), math/auto-libm-test-out-sqrt and -fma and math/libm-test-sqrt.inc, -fma.inc and"
    modes = attributes ? "all four of its modes, which are the attributes even, zero, down and up" : "nearest mode"
    print "# -scalbn.inc, formats binary64 and binary32, " modes ", with the flags that they state; figures alone, written by tools/vectors" (attributes ? " --attributes" : "") "."
    print "# Lines without those that came twice: " counts "; " left "."
    print "# Underflow where tininess is judged before rounding, and so not raised here: " told(before, "") "."
    for (i = 1; i <= last; i++) print lines[i]
    print "vectors: " counts "; " left > "/dev/stderr"
}
