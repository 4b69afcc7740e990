# Writes the C functions that a source declares, one a line, in C's words: `uint64_t pk_fmod64(uint64_t x, uint64_t y)`.
# -v from=face reads the face (crates/paskerotim_c/src/lib.rt), from=header the C header, from=rust the declarations of the Rust crate;
# from=inline the inline functions of the C header, which are its own and no face's.
# A lent place is a pointer: `flags: &mut u32` is `uint32_t *flags`. A lent list of the face is a pointer and a length, named after it:
# `xs: &[u64]` is `const uint64_t *xs, size_t xs_len`.
# What it does not understand it says on standard error, and ends with status 1.

BEGIN {
    type["u64"] = "uint64_t"; type["u32"] = "uint32_t"; type["i32"] = "int32_t"; type["usize"] = "size_t"
    place["&mut u64"] = "uint64_t *"; place["&mut u32"] = "uint32_t *"; place["&mut i32"] = "int32_t *"
    pointer["*const u64"] = "const uint64_t *"; pointer["*mut u64"] = "uint64_t *"
    pointer["*const u8"] = "const uint8_t *"; pointer["*mut u8"] = "uint8_t *"
    list["&[u64]"] = "const uint64_t *"; list["&mut [u64]"] = "uint64_t *"
    list["&[u8]"] = "const uint8_t *"; list["&mut [u8]"] = "uint8_t *"
}

from == "header" || from == "inline" {
    # a line of the preprocessor, and those that it goes on to
    if (directive || $0 ~ /^[ \t]*#/) directive = /\\$/
    else text = text " " $0
    next
}
{ sub(/\/\/.*/, ""); text = text " " $0 }

END {
    gsub(/[ \t\r]+/, " ", text)
    if (from == "header" || from == "inline") each_of_header()
    else if (from == "face") each_of_rust("extern \"C\" fn ", "face")
    else if (from == "rust") each_of_rust("fn pk_", "rust")
    else complain("no source '" from "'")
    exit failed
}

function complain(what) { print "declarations: " what > "/dev/stderr"; failed = 1 }

# ---- C: what stands before a semicolon, with comments and all that is in braces taken out
function each_of_header(    piece, pieces, n, i) {
    while (match(text, /\/\*/)) {
        piece = substr(text, RSTART + 2)
        i = index(piece, "*/")
        if (!i) { complain("a comment has no end"); return }
        text = substr(text, 1, RSTART - 1) " " substr(piece, i + 2)
    }
    # what is in these braces is declared; what is left of them stands before a declaration
    gsub(/extern "C" *\{/, "", text)
    while (match(text, /\{[^{}]*\}/)) text = substr(text, 1, RSTART - 1) ";" substr(text, RSTART + RLENGTH)
    gsub(/ +/, " ", text)
    n = split(text, pieces, ";")
    for (i = 1; i <= n; i++) {
        piece = pieces[i]
        if (piece !~ /pk_[a-z0-9_]* *\(/) continue
        sub(/^[ {}]*/, "", piece)
        if (piece ~ /^(template|typedef) /) continue
        if (sub(/^static inline /, "", piece) != (from == "inline")) continue
        print spaced(piece)
    }
}

function spaced(piece) {
    gsub(/ ?\( ?/, "(", piece); gsub(/ ?\) ?/, ")", piece); gsub(/ ?, ?/, ", ", piece); gsub(/ ?\* ?/, " *", piece)
    return piece
}

# ---- Rust and Rattle: after the word, a name, parameters, and perhaps a result
function each_of_rust(word, kind,    at, rest, name, parameters, result) {
    while ((at = index(text, word)) > 0) {
        rest = substr(text, at + index(word, "fn ") + 2)
        text = substr(text, at + length(word))
        if (!match(rest, /^[A-Za-z0-9_]+ ?\([^()]*\)/)) { complain("no declaration: " substr(rest, 1, 60)); continue }
        name = substr(rest, 1, index(rest, "(") - 1)
        parameters = substr(rest, index(rest, "(") + 1, RLENGTH - index(rest, "(") - 1)
        rest = substr(rest, RLENGTH + 1)
        result = "void"
        if (match(rest, /^ ?-> ?[^ ;{]+/)) {
            result = substr(rest, RSTART, RLENGTH)
            sub(/^ ?-> ?/, "", result)
            result = (result in type) ? type[result] : unknown(name, result)
        }
        print result " " name "(" parameters_of(name, parameters, kind) ")"
    }
}

function parameters_of(name, text,  kind,    parts, n, i, at, parameter, of, said) {
    n = split(text, parts, ",")
    said = ""
    for (i = 1; i <= n; i++) {
        gsub(/^ | $/, "", parts[i])
        if (parts[i] == "") continue
        at = index(parts[i], ":")
        parameter = substr(parts[i], 1, at - 1)
        of = substr(parts[i], at + 1)
        gsub(/^ | $/, "", parameter); gsub(/^ | $/, "", of)
        if (said != "") said = said ", "
        if (of in type) said = said type[of] " " parameter
        else if (of in place) said = said place[of] parameter
        else if (kind == "face" && of in list) said = said list[of] parameter ", size_t " parameter "_len"
        else if (kind == "rust" && of in pointer) said = said pointer[of] parameter
        else said = said unknown(name, of) " " parameter
    }
    return said == "" ? "void" : said
}

function unknown(name, what) { complain(name ": no type of C is known for '" what "'"); return "?" }
