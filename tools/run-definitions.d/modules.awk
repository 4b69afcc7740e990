# Writes accepted lines as declarations, in modules of equal work, folder/NAME.antt with names that begin with `round`, and prints NAME NUMBER GROUP for
# each line that it wrote; the file `sums` gets NAME COUNT for each module, the count of lines up to its end. The lines are read twice, with pass 1 and 2.
# What a declaration says goes by `mode`:
#   claim  the line's answer is the definition's; of a long list each part in a declaration of its own. Lines with flags and of numerals go many to a
#          declaration, a group, by its first line, which is much quicker; but those in the file `doubted`, whose group was refused, one by one
#   ask    an equation that is always refused, with a message that has the definition's answer; for all but long lists, which the message cannot hold.
#          Flags can take more steps than a message is given, so of each there is an equation that is refused if it is raised
#   deny   the part of a long list that was refused is not the definition's; the file of verdicts, read before the lines, has the part

FILENAME == verdicts { partRefused[$1] = $3; next }
FILENAME == doubted { isDoubted[$1] = 1; next }
{
    take_apart()
    take_lists()
    if (mode == "ask" && isLong || mode == "deny" && !isLong) next
}
pass == 1 { total += weight(); if (of_numerals(base)) hasNumerals = 1; next }
{
    # lines that are likely to be refused spoil no module of others
    if (module == "" || work >= share * modules || (lineNumber in isDoubted) != forDoubted) open_module()
    work += weight()
    written++
    if ((with_flags(form) || of_numerals(base)) && mode == "claim" && !forDoubted) { add_to_group(); next }
    print module " " lineNumber " " lineNumber
    if (base == "list" && isLong) write_long_list()
    else if (base == "list") write_list()
    else if (with_flags(form) && mode == "ask") ask_with_flags()
    else declare("line" lineNumber, set_terms(), definitionsOf[form])
}
END { if (module != "") close_module() }

# what a line costs the checker, in ms or so; a run of it costs some seconds besides, whatever it has
function weight() {
    if (!with_flags(form)) return (width == 64 ? 5 : 3) + 5 * afterCount
    if (base == "floor" || base == "trunc" || base == "ceil") return width == 64 ? 5 : width == 32 ? 2 : 1
    return width == 64 ? 10 : width == 32 ? 4 : 2
}

# the work of a module: `most` or less, so that as many are checked as the checker has jobs
function share_of_work(    n) {
    n = int((total + most - 1) / most)
    while (n % jobs && total / (n + 1) > 250) n++
    return total / n
}

function open_module() {
    if (module == "") share = share_of_work()
    else close_module()
    forDoubted = (lineNumber in isDoubted)
    module = round "x" (++modules)
    out = folder "/" module ".antt"
    put("use Rattle.std.specs.Prelude.{◌≡◌, ℕ, suc, ◌+◌, ◌*◌, Bool, true, false, ◌&&◌, eqb, List, [], ◌∷◌, ◌++◌, length, get_or, take, drop, replicate, ℤ, pos, negsuc}\n")
    put("use mathlib.Core.Path.{refl}\n")
    put("use Rattle.ieee.specs.Format.{b64, b32, b16}\n")
    put("use Rattle.ieee.specs.Flags.{flag_word}\n")
    put("use Rattle.ieee.specs.Sqrt.{sqrt_of, sqrt_flags}\n")
    put("use Rattle.ieee.specs.Whole.{floor_of, floor_flags, trunc_of, trunc_flags, ceil_of, ceil_flags}\n")
    put("use Rattle.ieee.specs.Scalbn.{scalbn_of, scalbn_flags}\n")
    put("use Rattle.ieee.specs.Fma.{fma_of, fma_flags}\n")
    put("use Rattle.ieee.specs.Rounded.{Rounded, sqrt_rounded, fma_rounded, scalbn_rounded}\n")
    put("use Rattle.ieee.specs.Fmod.{fmod_of}\n")
    put("use Rattle.ieee.specs.Remquo.{remquo_of, quotient_of}\n")
    put("use Rattle.ieee.specs.Refusal.{number_of, value_of}\n")
    put("use Rattle.ieee.specs.Reduction.{reduce_of}\n")
    put("use Rattle.ieee.specs.Lists.{list_of}\n")
    put("use Rattle.ieee.specs.Modf.{modf_of, modf_whole}\n")
    put("use Rattle.ieee.specs.Frexp.{frexp_of, frexp_exponent, ilogb_of}\n")
    put("use Rattle.ieee.specs.Nextafter.{nextafter_of}\n")
    if (hasNumerals) put_numerals()
    put("\n")
    put_told()
    if (mode == "ask") put_shown()
    if (mode == "deny") put_same()
}

function close_module() {
    write_group()
    close(out)
    print module " " written > sums
}

# the answer of a line with flags
function put_told() {
    put("abbrev told : Rounded → List ℕ\n")
    put("told r = r.number ∷ r.value ∷ flag_word r.flags ∷ []\n\n")
}

# the definitions of numerals, and the answers of such lines
function put_numerals() {
    put("use Rattle.ieee.specs.Refusal.{Answer}\n")
    put("use Rattle.ieee_numeral_laws.specs.Read.{read_of, read_rounded}\n")
    put("use Rattle.ieee_numeral_laws.specs.Write.{Written, write_of}\n\n")
    put("abbrev answered : Answer → List ℕ\n")
    put("answered a = number_of a ∷ value_of a ∷ []\n\n")
    put("abbrev wrote : Written → List ℕ\n")
    put("wrote w = number_of w.answer ∷ value_of w.answer ∷ w.output\n\n")
    if (mode != "ask") return
    put("abbrev text_in : Written → List ℕ\n")
    put("text_in w = take (value_of w.answer) w.output\n\n")
    # the first byte is the last of the number's
    put("abbrev packed : List ℕ → ℕ\n")
    put("packed [] = 0\n")
    put("packed (x ∷ xs) = x + 256 * packed xs\n\n")
}

function put_shown() {
    # an answer as one number: a 1, then twenty decimal digits for each part, the last part first
    put("abbrev shown : List ℕ → ℕ\n")
    put("shown [] = 1\n")
    put("shown (x ∷ xs) = x + 100000000000000000000 * shown xs\n\n")
    # a signed number as one part: ten digits, the last of which is 1 if it is negative, then the ten of its size
    put("abbrev flat : ℤ → ℕ\n")
    put("flat (pos n) = n\n")
    put("flat (negsuc n) = 10000000000 + suc n\n\n")
}

function put_same() {
    put("abbrev same : List ℕ → List ℕ → Bool\n")
    put("same [] [] = true\n")
    put("same [] (y ∷ ys) = false\n")
    put("same (x ∷ xs) [] = false\n")
    put("same (x ∷ xs) (y ∷ ys) = eqb x y && same xs ys\n\n")
}

function put(text) { printf "%s", text > out }

# the terms of a line, in term[], and what the line says of each, in said[]; how many there are: most often one definition for each part of the answer
function set_terms(    format, definition, kind, n, i) {
    format = " b" width
    if (with_flags(form)) return set_terms_with_flags(format)
    if (of_numerals(base)) return mode == "ask" ? ask_terms_of_numeral() : set_terms_of_numeral()
    if (base == "reduce") {
        term[1] = "number_of (reduce_of " width hex(1) " " operand[2] hex(3) ")"; said[1] = answer[1]
        term[2] = "value_of (reduce_of " width hex(1) " " operand[2] hex(3) ")"; said[2] = "0x" answer[2]
        return 2
    }
    n = split(definitionsOf[form], definition, " ")
    split(answersOf[form], kind, " ")
    for (i = 1; i <= n; i++) {
        term[i] = definition[i] format operand_terms()
        said[i] = kind[i] == "signed" ? whole(answer[i]) : "0x" answer[i]
        if (mode == "ask" && kind[i] == "signed") term[i] = "flat (" term[i] ")"
    }
    return n
}

# one term: the list of the parts of the answer
function set_terms_with_flags(format) {
    if (form == base) {
        term[1] = "(" base "_of" format operand_terms() " ∷ flag_word (" base "_flags" format operand_terms() ") ∷ [])"
        said[1] = "(0x" answer[1] " ∷ " numberOfFlags[answer[2]] " ∷ [])"
    } else {
        term[1] = "told (" rounded_call() ")"
        said[1] = "(" answer[1] " ∷ 0x" answer[2] " ∷ " numberOfFlags[answer[3]] " ∷ [])"
    }
    return 1
}

# without an attribute, under nearest even
function rounded_call() { return base "_rounded b" width " " (form == base ? 0 : attribute(suffixOf(op))) operand_terms() }

# The call under an attribute takes fewest steps, so it is asked where there is one. What it shows is run in its turn, by the line's own definition.
function ask_with_flags(    flags, definitions, n, i) {
    if (stemOf(op) in takesAttribute) {
        term[++n] = "(" rounded_call() ").number"
        term[++n] = "(" rounded_call() ").value"
        flags = "(" rounded_call() ").flags"
        definitions = definitionsOf[base ".A"]
    } else {
        term[++n] = base "_of b" width hex(1)
        flags = "(" base "_flags b" width hex(1) ")"
        definitions = definitionsOf[form]
    }
    declare("line" lineNumber, n, definitions)
    for (i = 1; i <= flagCount; i++) put_declaration("line" lineNumber "-flag" i, flags "." flagField[i] " ≡ false", "refl", definitions)
}

# all operands, of which those after the first are words too, or one number with a sign
function operand_terms(    i, text) {
    if (base == "scalbn") return hex(1) " (" whole(operand[2]) ")"
    for (i = 1; i <= operandCount; i++) text = text hex(i)
    return text
}

# ---- a group: an equation of two lists, with a place for each line
function add_to_group() {
    if (grouped == 0) groupName = lineNumber
    print module " " lineNumber " " groupName
    set_terms()
    groupTerms = groupTerms term[1] " ∷ "
    groupSaid = groupSaid said[1] " ∷ "
    if (!index(" " groupDefinitions " ", " " definitionsOf[form] " ")) groupDefinitions = groupDefinitions (grouped ? " " : "") definitionsOf[form]
    if (++grouped == 16) write_group()
}

# a refusal of one line names that line
function write_group() {
    if (grouped == 0) return
    put_declaration((grouped == 1 ? "line" : "lines") groupName, "(" groupTerms "[]) ≡ (" groupSaid "[])", "refl", groupDefinitions)
    groupTerms = groupSaid = groupDefinitions = ""
    grouped = 0
}

function hex(i) { return " 0x" operand[i] }

# a decimal number with a sign, as antt writes one
function whole(number) { return number ~ /^-/ ? "negsuc " sprintf("%.0f", -number - 1) : "pos " number }

# one declaration of the n equations of term[] and said[], or asking for the n terms
function declare(name, n, definitions,    i, claim, proof) {
    for (i = 1; i <= n; i++) {
        if (mode == "ask") claim = claim term[i] " ∷ "
        else claim = claim (i > 1 ? " × " : "") "(" term[i] " ≡ " said[i] ")"
        proof = proof (i > 1 ? ", " : "") "refl"
    }
    if (mode == "ask") put_declaration(name, "shown (" claim "[]) ≡ 0", "refl", definitions)
    else put_declaration(name, claim, "(" proof ")", definitions)
}

function put_declaration(name, claim, proof, definitions) { put(name " : " claim "\nunfolding " definitions "\n" name " = " proof "\n\n") }

# the call of a list line, after its lists
function list_call() {
    write_places("input" lineNumber, input, 1, inputCount)
    write_places("before" lineNumber, before, 1, beforeCount)
    return "list_of b64 " operand[1] " input" lineNumber " before" lineNumber
}

function write_list(    call, i) {
    call = list_call()
    term[1] = "number_of (" call ").answer"; said[1] = answer[1]
    term[2] = "value_of (" call ").answer"; said[2] = 0
    if (mode == "ask") term[3] = "length (" call ").output"
    else {
        write_places("after" lineNumber, after, 1, afterCount)
        term[3] = "(" call ").output"; said[3] = "after" lineNumber
    }
    declare("line" lineNumber, 3, definitionsOf[form])
    if (mode != "ask") return
    # each place by itself; the output is as long as one of the two lists
    for (i = 1; i <= inputCount || i <= beforeCount; i++) {
        term[1] = "get_or (" call ").output " (i - 1) " 0"
        declare("line" lineNumber "-" i, 1, definitionsOf[form])
    }
}

# the answer, the length of the output, then the output slice by slice
function write_long_list(    call, k, from, to, name) {
    call = list_call()
    write_part("answer", "number_of (" call ").answer", answer[1], "eqb")
    write_part("value", "value_of (" call ").answer", 0, "eqb")
    write_part("length", "length (" call ").output", afterCount, "eqb")
    for (k = 1; (k - 1) * slice < afterCount; k++) {
        from = (k - 1) * slice + 1
        to = last_of_slice(k)
        name = "after" lineNumber "-" k
        write_places(name, after, from, to)
        write_part(k, "take " (to - from + 1) " (drop " (from - 1) " (" call ").output)", name, "same")
    }
}

# claims a part, or denies it by the test for equality, if it is the one that was refused
function write_part(part, found, claimed, test) {
    if (mode == "claim") put_declaration("line" lineNumber "-" part, found " ≡ " claimed, "refl", definitionsOf[form])
    else if (partRefused[lineNumber] == part) put_declaration("line" lineNumber "-" part, test " (" found ") " claimed " ≡ false", "refl", definitionsOf[form])
}

# places from..to of a list, under a name; a run of equal places is written as one, which the checker then computes once
function write_places(name, a, from, to,    i, n, opened) {
    put("abbrev " name " : List ℕ\n" name " = ")
    for (i = from; i <= to; i += n) {
        for (n = 1; i + n <= to && a[i + n] == a[i]; n++);
        if (n < 8) { n = 1; put("0x" a[i] " ∷ ") }
        else { opened++; put("(replicate " n " 0x" a[i] " ++ ") }
    }
    put("[]")
    for (; opened > 0; opened--) put(")")
    put("\n\n")
}
