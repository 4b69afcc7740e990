# Reads the answers that the definitions give and the accepted lines, and prints each line with flags again, with the answer that was given. What flags are
# raised is known from refusals alone, so such a line is run in its turn.

FILENAME == answersFile { given[$1] = substr($0, length($1) + 2); next }
{
    take_apart()
    if (!with_flags(form) || !(lineNumber in given)) next
    n = split(given[lineNumber], field, " ")
    text = (form != base ? plain(field[1]) " " : "") hex_of(field[n], width / 4)
    for (i = 1; i <= flagCount; i++) if ((lineNumber "-flag" i) in given) raised += flagBit[i]
    print lineNumber " " substr(lineText, 1, index(lineText, " -> ") + 3) text " " flagsOfNumber[raised + 0]
    raised = 0
}
