# Holds a file of cases to its form, which the head of tests/bad-input.cases has. Writes FILE:LINE: error: WHAT for each fault. Run by tests/bad-input.

function bad(line, what) {
    print label ":" line ": error: " what
    faults++
}
function forget(    word) {
    for (word in count) delete count[word]
    titled = first = texts = in_file = 0
}
function end_block() {
    if (first) {
        if (!titled) bad(first, "a case without a title; expected a line that begins with # before it")
        if (!count["run"]) bad(first, "a case without 'run'")
        if (!count["status"]) bad(first, "a case without a status")
        if (!texts) bad(first, "a case without any text; expected 'gives', 'complains' or 'says'")
        if (count["run"] > 1 || count["status"] > 1) bad(first, "a case has one 'run' and one 'status'; an empty line ends it")
    }
    forget()
}

BEGIN {
    words = "section before file program run needs input status gives complains says"
    size = split(words, word_at, " ")
    for (i = 1; i <= size; i++) known[word_at[i]] = 1
    forget()
}

/^$/ { end_block(); next }
/^#/ { if (!first) titled = 1; next }
/^\|/ { if (!in_file) bad(NR, "a line of a file, and no 'file' or 'program' before it"); next }
/\t/ { bad(NR, "a tab stands in the line; expected blanks, or \\t in a text"); next }
/^ / { bad(NR, "a line begins with a blank; expected a word"); next }
{
    word = $1
    text = $0
    sub(/^[^ ]+ */, "", text)
    in_file = 0
    if (!(word in known)) { bad(NR, "unknown word '" word "'; expected one of " words); next }
    if (text == "" && word !~ /^(input|gives|complains)$/) bad(NR, "nothing stands after '" word "'")
    if (word == "section" || word == "before" || word == "file" || word == "program") { outside_cases(); next }
    if (!first) first = NR
    count[word]++
    if (word == "status" && (text !~ /^[0-9]+$/ || text + 0 > 255)) bad(NR, "no exit status: '" text "'; expected a number from 0 to 255")
    if (word == "gives" || word == "complains" || word == "says") texts++
}
function outside_cases() {
    if (first) bad(NR, "'" word "' within a case; expected an empty line before it")
    in_file = word == "file" || word == "program"
    if (in_file && text ~ /^\/|\.\.| /) bad(NR, "no name for a file: '" text "'")
    if (word == "section" && ($2 in section_at)) bad(NR, "the section " $2 " is there already, at line " section_at[$2])
    if (word == "section") section_at[$2] = NR
}

END {
    end_block()
    exit faults > 0
}
