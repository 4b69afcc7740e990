# Numerals: texts as lists of bytes, the output before and after, and what is said of a line. Functions alone, for modules.awk and report.awk.

function of_numerals(base) { return base == "read" || base == "write" }

# ---- the line as terms of antt
# one term, a list of numbers: the number and the value of the answer; of the writer its length, and then every byte of the output
function set_terms_of_numeral() {
    if (base == "read") {
        term[1] = "answered (" read_call() ")"
        said[1] = "(" answer[1] " ∷ 0x" answer[2] " ∷ [])"
    } else {
        term[1] = "wrote (" write_call() ")"
        said[1] = "(" answer[1] " ∷ " answer[2] " ∷ " (answer[1] == 0 ? bytes(answer[3], room_from(length(answer[3]))) : room_from(0)) ")"
    }
    return 1
}

# the parts one by one, of at most twenty decimal digits each: the text that is written goes by eights
function ask_terms_of_numeral(    call) {
    call = base == "read" ? read_call() : write_call()
    if (base == "read") {
        term[1] = "number_of (" call ")"
        term[2] = "value_of (" call ")"
        return 2
    }
    term[1] = "number_of (" call ").answer"
    term[2] = "value_of (" call ").answer"
    term[3] = "packed (take 8 (text_in (" call ")))"
    term[4] = "packed (take 8 (drop 8 (text_in (" call "))))"
    term[5] = "packed (drop 16 (text_in (" call ")))"
    return 5
}

function read_call() { return (form == base ? "read_of b" width : "read_rounded b" width " " attribute(suffixOf(op))) " (" bytes(operand[1], "[]") ")" }

function write_call() { return "write_of b" width " 0x" operand[1] " (" room_from(0) ")" }

# a text before what follows it
function bytes(text, rest,    i, term) {
    for (i = 1; i <= length(text); i++) term = term byte_of(substr(text, i, 1)) " ∷ "
    return term rest
}

# what the output holds before the call, from a place on: no byte that a text has, and others in every line
function room_from(place,    i, term) {
    for (i = place; i < operand[2]; i++) term = term 128 + (lineNumber + 37 * i) % 128 " ∷ "
    return term "[]"
}

# the number of a byte; under LC_ALL=C a character is one
function byte_of(c,    i) {
    if (!("0" in byteNumber)) for (i = 1; i < 256; i++) byteNumber[sprintf("%c", i)] = i
    return byteNumber[c]
}

# ---- what the definition gives for a line, from the parts that were asked for
function written_gives(part, n,    i, text) {
    if (n != 5) return ""
    if (plain(part[1]) != 0) return plain(part[1]) " " plain(part[2])
    for (i = 3; i <= 5; i++) text = text unpacked(part[i])
    return plain(part[1]) " " plain(part[2]) " " text
}

# the bytes of a number, the last of its hex digits first
function unpacked(digits,    shown, text, i, c) {
    shown = hex_of(digits, 16)
    for (i = length(shown) - 1; i >= 1; i -= 2) {
        c = 16 * (index("0123456789abcdef", substr(shown, i, 1)) - 1) + index("0123456789abcdef", substr(shown, i + 1, 1)) - 1
        if (c > 0) text = text sprintf("%c", c)
    }
    return text
}
