# The operations, and what stands at each place of a line. Every other program here is run with this one before it.
# A name is a base and a width, and may have an attribute after a point: sqrt64, sqrt64.up, sqrt64.7. Its form is the base alone, or BASE.A.

function operation(form, operands, answers, shape, definitions) {
    operandsOf[form] = operands
    answersOf[form] = answers
    shapeOf[form] = shape
    definitionsOf[form] = definitions
}

BEGIN {
    operation("sqrt", "word", "word flags", "X -> R FLAGS", "sqrt_of sqrt_flags")
    operation("floor", "word", "word flags", "X -> R FLAGS", "floor_of floor_flags")
    operation("trunc", "word", "word flags", "X -> R FLAGS", "trunc_of trunc_flags")
    operation("ceil", "word", "word flags", "X -> R FLAGS", "ceil_of ceil_flags")
    operation("scalbn", "word signed", "word flags", "X N -> R FLAGS", "scalbn_of scalbn_flags")
    operation("fma", "word word word", "word flags", "X Y Z -> R FLAGS", "fma_of fma_flags")
    operation("fmod", "word word", "word", "X Y -> R", "fmod_of")
    operation("remquo", "word word", "word signed", "X Y -> R QUOTIENT", "remquo_of quotient_of")
    operation("reduce", "word unsigned word", "unsigned word", "X SHIFT Y -> REFUSAL R", "reduce_of")
    operation("list", "unsigned words words", "unsigned words", "OPERATION INPUT OUTPUT -> REFUSAL OUTPUT", "list_of")
    operation("modf", "word", "word word", "X -> FRACTION WHOLE", "modf_of modf_whole")
    operation("frexp", "word", "word signed", "X -> R EXPONENT", "frexp_of frexp_exponent")
    operation("ilogb", "word", "signed", "X -> EXPONENT", "ilogb_of")
    operation("nextafter", "word word", "word", "X Y -> R", "nextafter_of")
    operation("sqrt.A", "word", "unsigned word flags", "X -> NUMBER R FLAGS", "sqrt_rounded")
    operation("fma.A", "word word word", "unsigned word flags", "X Y Z -> NUMBER R FLAGS", "fma_rounded")
    operation("scalbn.A", "word signed", "unsigned word flags", "X N -> NUMBER R FLAGS", "scalbn_rounded")
    operation("read", "text", "unsigned word", "TEXT -> NUMBER R", "read_of")
    operation("read.A", "text", "unsigned word", "TEXT -> NUMBER R", "read_rounded")
    operation("write", "word room", "unsigned unsigned text", "X ROOM -> NUMBER LENGTH TEXT, or 8 0 where it is refused", "write_of")
    names = "sqrt64 sqrt32 floor64 floor32 trunc64 trunc32 ceil64 ceil32 scalbn64 scalbn32 fma64 fma32 fmod64 fmod32 remquo64 reduce64 reduce32 list64"
    names = names " modf64 modf32 frexp64 frexp32 ilogb64 ilogb32 nextafter64 nextafter32"
    operationCount = split(names, operationAt, " ")
    for (i = 1; i <= operationCount; i++) known[operationAt[i]] = 1
    name_flagged()
    name_numerals()
    name_flags()
    # so many places of a list are compared in one declaration, which the checker's limit of steps a declaration allows
    slice = 256
    # so many bytes of an output are written out
    mostRoom = 4096
}

# the names whose answer has flags, in the order of the counts: those that take an attribute come first; and the attributes
function name_flagged(    i) {
    attributeCount = split("even zero down up away", attributeAt, " ")
    for (i = 1; i <= attributeCount; i++) numberOfAttribute[attributeAt[i]] = i - 1
    narrowNames = "sqrt16 fma16 scalbn16 floor16 trunc16 ceil16"
    stemCount = split("sqrt64 sqrt32 sqrt16 fma64 fma32 fma16 scalbn64 scalbn32 scalbn16 floor64 floor32 floor16 trunc64 trunc32 trunc16 ceil64 ceil32 ceil16", stemAt, " ")
    for (i = 1; i <= stemCount; i++) {
        known[stemAt[i]] = 1
        if (i <= 9) takesAttribute[stemAt[i]] = 1
    }
}

# the names of numerals, in the order of the counts
function name_numerals(    i) {
    numeralNames = "read64 read32 read16 write64 write32 write16"
    numeralCount = split(numeralNames, numeralAt, " ")
    for (i = 1; i <= numeralCount; i++) {
        known[numeralAt[i]] = 1
        if (baseOf(numeralAt[i]) == "read") takesAttribute[numeralAt[i]] = 1
    }
}

# the flags, and each of their 32 sets, by its words and by its number
function name_flags(    word, set, rest, i, text, number) {
    flagCount = split("invalid division_by_zero overflow underflow inexact", flagField, " ")
    split("INVALID DIVBYZERO OVERFLOW UNDERFLOW INEXACT", word, " ")
    split("1 4 8 16 32", flagBit, " ")
    for (set = 0; set < 32; set++) {
        text = ""
        number = 0
        rest = set
        for (i = 1; i <= flagCount; i++) {
            if (rest % 2) { text = text (text == "" ? "" : "+") word[i]; number += flagBit[i] }
            rest = int(rest / 2)
        }
        if (text == "") text = "OK"
        numberOfFlags[text] = number
        flagsOfNumber[number] = text
    }
}

function stemOf(op) { sub(/\..*/, "", op); return op }
function suffixOf(op) { return substr(op, length(stemOf(op)) + 2) }
function baseOf(op) { op = stemOf(op); return substr(op, 1, length(op) - 2) }
function widthOf(op) { op = stemOf(op); return substr(op, length(op) - 1) }
function formOf(op) { return baseOf(op) (index(op, ".") ? ".A" : "") }
function with_flags(form) { return answersOf[form] ~ /flags$/ }

# the number of an attribute, by its name or by itself
function attribute(suffix) { return suffix in numberOfAttribute ? numberOfAttribute[suffix] : suffix }

# the places of a list, in a; `-` is the empty list
function places(list, a) { return list == "-" ? 0 : split(list, a, ",") }

# a line of the file of accepted lines is the number of the line in the input, a blank and the line; this takes it apart
function take_apart(    at) {
    lineNumber = $1
    lineText = substr($0, length($1) + 2)
    at = index(lineText, " -> ")
    answerText = substr(lineText, at + 4)
    operandCount = split(substr(lineText, 1, at - 1), operand, " ") - 1
    answerCount = split(answerText, answer, " ")
    op = operand[1]
    for (at = 1; at <= operandCount; at++) operand[at] = operand[at + 1]
    base = baseOf(op)
    width = widthOf(op)
    form = formOf(op)
    if (base == "read") operand[1] = text_of(lineText)
}

# the text of a line that is read: all between the blank after the name and the first arrow
function text_of(line,    start) {
    start = index(line, " ") + 1
    return substr(line, start, index(line, " -> ") - start)
}

# the lists of a list line, and whether one is long, so that the output is compared slice by slice
function take_lists() {
    inputCount = beforeCount = afterCount = isLong = 0
    if (base != "list") return
    inputCount = places(operand[2], input)
    beforeCount = places(operand[3], before)
    afterCount = places(answer[2], after)
    isLong = inputCount > slice || beforeCount > slice || afterCount > slice
}

function last_of_slice(k) { return k * slice < afterCount ? k * slice : afterCount }

function plain(digits) { sub(/^0+/, "", digits); return digits == "" ? "0" : digits }

# decimal digits as hex digits, at least n: by division of the digits, because no awk need hold 64 bits in a number
function hex_of(digits, n,    text, quotient, rest, i) {
    while (n-- > 0 || digits ~ /[1-9]/) {
        quotient = ""
        rest = 0
        for (i = 1; i <= length(digits); i++) {
            rest = rest * 10 + substr(digits, i, 1)
            quotient = quotient int(rest / 16)
            rest %= 16
        }
        text = substr("0123456789abcdef", rest + 1, 1) text
        digits = quotient
    }
    return text
}
