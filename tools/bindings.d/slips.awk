# Makes the slips: calls that must not compile, each with one wrong argument, in every place of every function that is on standard input as
# declarations.awk writes it. Writes `REASON CALL` a line; the arguments are variables of tools/bindings.d/slips.h. pk_list64 takes no pattern
# by value and has none.

BEGIN {
    right["uint64_t"] = "a_uint64"; right["uint32_t"] = "a_uint32"; right["int32_t"] = "an_int"; right["int"] = "an_int"
    right["double"] = "a_double"; right["float"] = "a_float"; right["size_t"] = "a_size"
    right["uint64_t *"] = "&a_uint64"; right["uint32_t *"] = "&a_uint32"; right["int32_t *"] = "&an_int"; right["int *"] = "&an_int"
    right["double *"] = "&a_double"; right["float *"] = "&a_float"; right["size_t *"] = "&a_size"
    right["const uint8_t *"] = right["uint8_t *"] = "some_bytes"; right["const char *"] = right["char *"] = "some_chars"
    number = "pk_error_takes_a_pattern_not_a_number"
    pattern = "pk_error_takes_a_number_not_a_pattern"
    wider = "pk_error_takes_nothing_wider"
    wrong["uint64_t", number] = wrong["uint32_t", number] = wrong["int32_t", number] = wrong["int", number] = "a_double a_float a_long_double 2.0 2.0f"
    wrong["size_t", number] = "a_double a_float 2.0"
    wrong["uint32_t", wider] = wrong["int32_t", wider] = wrong["int", wider] = "a_uint64 an_int64 a_long a_long_long UINT64_C(1)"
    wrong["double", pattern] = wrong["float", pattern] = "a_uint64 a_uint32 an_int 2 0x4000000000000000"
    wrong["double", wider] = "a_long_double"
    wrong["float", wider] = "a_double a_long_double 2.0"
}

/ pk_list64\(/ { next }
{
    name = $0
    sub(/\(.*/, "", name); sub(/.* /, "", name)
    parameters = substr($0, index($0, "(") + 1)
    sub(/\).*/, "", parameters)
    places = split(parameters, type, ", ")
    # what is left of `uint64_t x` is its type
    for (i = 1; i <= places; i++) if (!sub(/ [a-z_]+$/, "", type[i])) sub(/[a-z_]+$/, "", type[i])
    for (i = 1; i <= places; i++) { slip(number, i); slip(pattern, i); slip(wider, i) }
}

function slip(reason, place,    arguments, n, i) {
    n = split(wrong[type[place], reason], arguments, " ")
    for (i = 1; i <= n; i++) print reason, name "(" with(place, arguments[i]) ")"
}

function with(place, argument,    i, said) {
    for (i = 1; i <= places; i++) {
        if (i != place && !(type[i] in right)) { print "slips: " name ": no argument of type " type[i] > "/dev/stderr"; failed = 1 }
        said = said (i > 1 ? ", " : "") (i == place ? argument : right[type[i]])
    }
    return said
}

END { exit failed }
