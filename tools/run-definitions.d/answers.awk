# Reads what the checker said of the declarations that ask, and prints for each that shows its answer: NAME PART PART .., of twenty decimal digits each,
# in the order of the line. For each flag that is raised it prints NAME-flagNUMBER.

# the declaration says that the flag is not raised
/\/proofs\/[a-z0-9]+\.antt:[0-9]+:[0-9]+: error: `line[0-9]+-flag[1-5]`/ {
    tell()
    sub(/.*error: `line/, "")
    sub(/`.*/, "")
    print
    next
}
/\/proofs\/[a-z0-9]+\.antt:[0-9]+:[0-9]+: error: `line[0-9]+(-[0-9]+)?`/ {
    tell()
    name = $0
    sub(/.*error: `line/, "", name)
    sub(/`.*/, "", name)
    message = $0
    next
}
/^  / && name != "" { message = message " " $0; next }
{ tell() }
END { tell() }

# the one long number that the two sides compute to; a cut one has no whole number of parts
function tell(    at, digits, line) {
    at = index(message, "computed as far as they go")
    if (name != "" && at) {
        message = substr(message, at)
        if (match(message, /[` ]1[0-9]+[` ]/)) {
            digits = substr(message, RSTART + 2, RLENGTH - 3)
            if (digits != "" && length(digits) % 20 == 0) {
                for (line = name; digits != ""; digits = substr(digits, 1, length(digits) - 20)) line = line " " substr(digits, length(digits) - 19)
                print line
            }
        }
    }
    name = message = ""
}
