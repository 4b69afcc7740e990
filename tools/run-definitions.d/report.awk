# Reads the answers that the definitions give (NAME PART ..), the verdicts on the denials of long lists, the proposed lines with flags and the verdicts on
# them, the verdicts, and the accepted lines, in this order; prints each line that does not agree, and the counts. Ends with 1 unless every line agreed and there was one.

FILENAME == answersFile { given[$1] = substr($0, length($1) + 2); next }
FILENAME == denialsFile { if ($2 == "agreed") denied[$1] = 1; next }
FILENAME == proposedFile { proposed[$1] = substr($0, index($0, " -> ") + 4); next }
FILENAME == heldFile { if ($2 == "agreed") held[$1] = 1; next }
FILENAME == verdictsFile {
    verdict[$1] = $2
    why[$1] = substr($0, length($1 $2) + 3)
    if ($2 != "refused") next
    part[$1] = $3
    why[$1] = substr(why[$1], length($3) + 2)
    next
}
{
    take_apart()
    if (!(op in cases)) note_number()
    cases[op]++
    total++
    if (verdict[lineNumber] == "agreed") next
    answers = verdict[lineNumber] == "refused" ? definition_gives() : ""
    if (answers != "" && answers != answerText) {
        print lineNumber ": " shortened(lineText) "; the definition gives " answers
        disagreements[op]++
        disagreed++
    } else {
        print lineNumber ": " shortened(lineText) "; NO VERDICT: " (why[lineNumber] == "" ? "the checker did not say why" : why[lineNumber])
        undecided[op]++
        open++
    }
}

# remembers an operation whose attribute is a number, for the counts
function note_number(    suffix) {
    suffix = suffixOf(op)
    if (suffix !~ /^[0-9]/) return
    numbersOf[stemOf(op)] = numbersOf[stemOf(op)] " " suffix
    if (suffix + 0 >= attributeCount) numberWasRefused[of_numerals(base)] = 1
}

function shortened(text) { return length(text) > 400 ? substr(text, 1, 400) "..." : text }

# the answer of the definition in the form of a line, or nothing where it was not shown
function definition_gives(    field, n, kind, i, text) {
    take_lists()
    if (isLong) return long_list_gives()
    if (with_flags(form)) return lineNumber in held ? proposed[lineNumber] : ""
    n = split(given[lineNumber], field, " ")
    if (base == "list") return n == 3 ? list_gives(field) : ""
    if (base == "write") return written_gives(field, n)
    if (n != split(answersOf[form], kind, " ")) return ""
    for (i = 1; i <= n; i++) text = text (i > 1 ? " " : "") written(kind[i], field[i])
    return text
}

function written(kind, digits) {
    if (kind == "word") return hex_of(digits, width / 4)
    if (kind == "signed" && substr(digits, 10, 1) == "1") return "-" plain(substr(digits, 11))
    return plain(digits)
}

# number, value and length are in field[], and each place has a name of its own
function list_gives(field,    i, n, text) {
    n = plain(field[3]) + 0
    for (i = 1; i <= n; i++) {
        if (!((lineNumber "-" i) in given)) return ""
        text = text (i > 1 ? "," : "") hex_of(given[lineNumber "-" i], 16)
    }
    text = plain(field[1]) " " (n ? text : "-")
    return plain(field[2]) == "0" ? text : text " and the value " plain(field[2]) ", where a list has 0"
}

# of a long list, what is not the definition's
function long_list_gives(    k) {
    if (!(lineNumber in denied)) return ""
    k = part[lineNumber]
    if (k == "answer") return "another refusal number"
    if (k == "value") return "a value that is not 0"
    if (k == "length") return "an output of another length"
    return "something else at one or more of the places " (k - 1) * slice + 1 " to " last_of_slice(k)
}

function counted(n, one, many) { return n + 0 " " (n == 1 ? one : many) }

# the counts of an operation that had a line
function print_counts(op) {
    print op ": " counted(cases[op], "case", "cases") ", " counted(disagreements[op], "disagreement", "disagreements") (undecided[op] ? ", " undecided[op] " without a verdict" : "")
}

function print_plain_counts(    i) {
    for (i = 1; i <= operationCount; i++)
        if (operationAt[i] in cases) print_counts(operationAt[i]); else missing = missing " " operationAt[i]
}

# by stem: without an attribute, where that is not counted yet, then under attributes
function print_flags_counts(    i) {
    for (i = 1; i <= stemCount; i++) {
        if (widthOf(stemAt[i]) == 16) missingFlags = missingFlags counted_or_named(stemAt[i])
        else if (!(stemAt[i] in cases)) missingFlags = missingFlags " " stemAt[i]
        if (stemAt[i] in takesAttribute) missingFlags = missingFlags under_attributes(stemAt[i])
    }
    if (!numberWasRefused[0]) missingFlags = missingFlags " an attribute's number from " attributeCount " on"
}

# of numerals likewise
function print_numeral_counts(    i) {
    for (i = 1; i <= numeralCount; i++) {
        missingNumerals = missingNumerals counted_or_named(numeralAt[i])
        if (numeralAt[i] in takesAttribute) missingNumerals = missingNumerals under_attributes(numeralAt[i])
    }
    if (!numberWasRefused[1]) missingNumerals = missingNumerals " an attribute's number from " attributeCount " on"
}

# prints the counts of an operation, or gives its name where it had no line
function counted_or_named(op) {
    if (!(op in cases)) return " " op
    print_counts(op)
    return ""
}

# under the attributes in the order of their numbers, each by its word, then by a number
function under_attributes(stem,    k, n, suffix, missed) {
    for (k = 1; k <= attributeCount; k++) missed = missed counted_or_named(stem "." attributeAt[k])
    n = split(numbersOf[stem], suffix, " ")
    sort(suffix, n)
    for (k = 1; k <= n; k++) print_counts(stem "." suffix[k])
    return missed
}

# numbers in ascending order, over ever smaller distances
function sort(a, n,    distance, i, k, x) {
    for (distance = int(n / 2); distance > 0; distance = int(distance / 2))
        for (i = distance + 1; i <= n; i++) {
            x = a[i]
            for (k = i - distance; k > 0 && a[k] + 0 > x + 0; k -= distance) a[k + distance] = a[k]
            a[k + distance] = x
        }
}

END {
    print_plain_counts()
    print_flags_counts()
    print_numeral_counts()
    print "total: " counted(total, "case", "cases") ", " counted(disagreed, "disagreement", "disagreements") ", " open + 0 " without a verdict, " counted(malformed, "malformed line", "malformed lines")
    if (total == 0) print "run-definitions: there was no line to run"
    if (needAll && missing != "") print "run-definitions: no line for:" missing
    if (needFlags && missingFlags != "") print "run-definitions: no line with flags for:" missingFlags
    if (needNumerals && missingNumerals != "") print "run-definitions: no line of numerals for:" missingNumerals
    exit total == 0 || disagreed || open || malformed || (needAll && missing != "") || (needFlags && missingFlags != "") || (needNumerals && missingNumerals != "")
}
