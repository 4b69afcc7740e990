# Holds what a compiler said (the second file) to the slips that it was given (the first: `REASON CALL` a line). They stood one a line, slip N on
# line N of a source named `slips`, in a function slip_N. Each must have an error, and that must name the reason. Writes those that have not, and
# how many slips there were; status 1 where there is one, or where there is no slip.

FILENAME == ARGV[1] { reason[++slips] = $1; call[slips] = substr($0, length($1) + 2); next }

# what Clang tells of the other reasons
/candidate template ignored/ { next }
# GCC names the function first, Clang the line of the error.
/In function .*slip_[0-9]+/ { at = $0; sub(/.*slip_/, "", at); at += 0 }
/^slips:[0-9]+:.*error: / { split($0, part, ":"); at = part[2] + 0 }
/error: / { if (at in call) errors[at]++; else { print "an error elsewhere: " $0; failed = 1 } }
{ said[at] = said[at] " " tolower($0) }

END {
    for (i = 1; i <= slips; i++) {
        word = reason[i]
        # a macro may bear the reason as well
        sub(/^pk_error_/, "", word)
        if (!errors[i]) tell("compiles: " call[i])
        else if (!index(said[i], word)) tell("refused, and not with " reason[i] ": " call[i])
    }
    print slips + 0 " slips"
    exit failed || !slips
}

function tell(what) { print what; failed = 1 }
