# Reads lines, and prints each well-formed one that is to be run, with its number. What is wrong with the others goes to the file `malformed`.
# Every `every`th line of an operation is run, the first one always.

/^#/ || /^$/ { next }
{
    wrong = fault($0)
    if (wrong != "") { print ENVIRON["LABEL"] ":" NR ": error: " wrong > malformed; next }
    op = substr($0, 1, index($0, " ") - 1)
    if (seen[op]++ % every == 0) print NR " " $0
}

# what is wrong with a line, or nothing
function fault(text,    op, form, at, wrong, expected) {
    if (text ~ /\r$/) return "it ends in a carriage return"
    if (text ~ /^ /) return "a blank stands before the operation"
    op = text
    sub(/ .*/, "", op)
    wrong = fault_of_name(op)
    if (wrong != "") return wrong
    form = formOf(op)
    expected = "; expected " op " " shapeOf[form]
    at = index(text, " -> ")
    if (!at || text ~ / -> ?$/) return "the answer is missing" expected
    if (operandsOf[form] == "text") {
        if (at <= length(op) + 1) return "no blank follows the name" expected ", where TEXT may be empty"
        if (substr(text, at + 4) ~ /  |^ | $/) return "a blank too many in the answer" expected
    } else {
        if (text ~ /  | $/) return "a blank too many" expected ", with single blanks between"
        wrong = fault_of_words(op, "operand", operandsOf[form], substr(text, length(op) + 2, at - length(op) - 2), expected)
        if (wrong != "") return wrong
    }
    return fault_of_words(op, "answer word", kinds_of_answer(form, substr(text, at + 4)), substr(text, at + 4), expected)
}

# a text is written where the number is 0, and only there
function kinds_of_answer(form, answer) { return form == "write" && answer !~ /^0 / ? "unsigned unsigned" : answersOf[form] }

function fault_of_name(op,    stem, suffix) {
    if (op in known) return ""
    stem = stemOf(op)
    if (!(stem in known)) return "unknown operation " quoted(op) "; expected one of " names " " narrowNames " " numeralNames ", or sqrtW.A, fmaW.A, scalbnW.A or readW.A with W 64, 32 or 16"
    if (!(stem in takesAttribute)) return "unknown operation " quoted(op) "; expected " stem ", which takes no attribute"
    suffix = suffixOf(op)
    if (suffix in numberOfAttribute || is_number(suffix, 4294967295)) return ""
    return "attribute " quoted(suffix) " of " quoted(op) " is none; expected even, zero, down, up, away or a decimal number from 0 to 4294967295"
}

function fault_of_words(op, what, kinds, text, expected,    wanted, found, kind, word, i, wrong) {
    wanted = split(kinds, kind, " ")
    found = split(text, word, " ")
    if (found < wanted) return what " " (found + 1) " is missing" expected
    if (found > wanted) return what " " (wanted + 1) " " quoted(word[wanted + 1]) " is one too many" expected
    for (i = 1; i <= wanted; i++) {
        wrong = fault_of_word(kind[i], widthOf(op), word[i])
        if (wrong != "") return what " " i " " wrong
    }
    return ""
}

function fault_of_word(kind, width, word) {
    if (kind == "word") return is_word(word, width / 4) ? "" : quoted(word) " is not " width / 4 " lower-case hex digits"
    if (kind == "words") return fault_of_places(word, width / 4)
    if (kind == "flags") return word in numberOfFlags ? "" : quoted(word) " is not flags: OK, or some of INVALID, DIVBYZERO, OVERFLOW, UNDERFLOW and INEXACT in this order, joined by +"
    if (kind == "text") return ""
    if (kind == "room") return is_number(word, mostRoom) ? "" : quoted(word) " is not a decimal number from 0 to " mostRoom ", which is as much as is computed here"
    if (kind == "unsigned") return is_number(word, 4294967295) ? "" : quoted(word) " is not a decimal number from 0 to 4294967295"
    if (is_number(word, 2147483647)) return ""
    if (word ~ /^-[1-9]/ && is_number(substr(word, 2), 2147483648)) return ""
    return quoted(word) " is not a decimal number from -2147483648 to 2147483647"
}

function fault_of_places(list, digits,    n, a, i) {
    if (list == "-") return ""
    n = split(list, a, ",")
    for (i = 1; i <= n; i++)
        if (!is_word(a[i], digits)) return "has " quoted(a[i]) " at place " i ", which is not " digits " lower-case hex digits; expected such words joined by commas, or - for none"
    return ""
}

function is_word(word, digits) { return length(word) == digits && word !~ /[^0-9a-f]/ }

# ten digits are exact in every awk
function is_number(word, most) { return word ~ /^(0|[1-9][0-9]*)$/ && length(word) <= 10 && word + 0 <= most }

function quoted(word) { return "'" (length(word) > 60 ? substr(word, 1, 60) "..." : word) "'" }
