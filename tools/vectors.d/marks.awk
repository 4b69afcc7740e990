# What the marks of a glibc vector say: the flags that it raises, and why it is left out where it leaves something open. Read before lines.awk, which has wrong.

BEGIN {
    flagCount = split("INVALID DIVBYZERO OVERFLOW UNDERFLOW INEXACT", flagAt, " ")
    split("invalid divbyzero overflow underflow inexact", wordAt, " ")
    split("INVALID DIVIDE_BY_ZERO OVERFLOW UNDERFLOW INEXACT", macroAt, " ")
    for (i = 1; i <= flagCount; i++) flagOf[wordAt[i]] = flagOf[macroAt[i]] = flagAt[i]
}

# raised[] has the flags, reason the first thing that is left open: a flag's name, "sign", "answer", or "failing" for a vector that the library expects to fail.
function clear_marks() {
    reason = ""
    isTinyBefore = 0
    split("", raised)
}
function leave_out(why) { if (reason == "") reason = why }
function flags_text(    i, text) {
    for (i = 1; i <= flagCount; i++) if (flagAt[i] in raised) text = text (text == "" ? "" : "+") flagAt[i]
    return text == "" ? "OK" : text
}

# inexact underflow:before-rounding errno-erange-ok xfail:ibm128-libgcc: of a correctly rounded function each flag that is not there is not raised.
function read_words(text,    words, n, i, mark) {
    n = split(text, words, " ")
    for (i = 1; i <= n; i++) {
        mark = words[i]
        sub(/:.*/, "", mark)
        if (mark ~ /^errno-/ || !is_ours(words[i])) continue
        if (mark == "xfail") leave_out("failing")
        else if (mark == "ignore-zero-inf-sign") leave_out("sign")
        else if (mark in flagOf) raised[flagOf[mark]] = 1
        else if (sub(/-ok$/, "", mark) && mark in flagOf) leave_out(flagOf[mark])
        else wrong("no flag that is understood: " words[i])
    }
}
# A mark may hold on some machines alone. Ours judges tininess after rounding, and its formats are not ibm128.
function is_ours(word) {
    if (word !~ /:/ || word ~ /:after-rounding$/) return 1
    if (word ~ /^underflow:before-rounding$/) isTinyBefore = 1
    if (word !~ /:(before-rounding|ibm128-libgcc)$/) wrong("no flag that is understood: " word)
    return 0
}

# INEXACT_EXCEPTION|UNDERFLOW_EXCEPTION|ERRNO_PLUS_UFLOW: inexact is open unless it is named, the others are not raised unless they are.
function read_macros(text,    words, n, i, flag, isInexactKnown) {
    gsub(/ /, "", text)
    n = split(text, words, "|")
    for (i = 1; i <= n; i++) {
        flag = words[i]
        if (flag ~ /^(ERRNO_[A-Z_]*|XFAIL_(ROUNDING_)?IBM128_LIBGCC)$/) continue
        if (flag ~ /^(NO_)?INEXACT_EXCEPTION$/) isInexactKnown = 1
        if (flag == "NO_INEXACT_EXCEPTION") continue
        if (flag == "XFAIL_TEST") leave_out("failing")
        else if (flag == "IGNORE_ZERO_INF_SIGN") leave_out("sign")
        else if (sub(/_EXCEPTION$/, "", flag) && flag in flagOf) raised[flagOf[flag]] = 1
        else if (sub(/_EXCEPTION_OK$/, "", flag) && flag in flagOf) leave_out(flagOf[flag])
        else wrong("no flag that is understood: " words[i])
    }
    if (!isInexactKnown) leave_out("INEXACT")
}
