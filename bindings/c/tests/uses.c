/* Calls that must compile without a warning, in every standard of C and C++ that the header is for, and what they give: each
   argument is evaluated once, an integer that is as wide or narrower is taken as ever, a name without its arguments is the
   function, and no place but the one pointed to is written. Exit status: 0 all is as it must be, 1 something is not. */
#include <stdio.h>
#include <string.h>

#include "paskerotim.h"

#define ROOT_OF_TWO UINT64_C(0x3ff6a09e667f3bcd)
#define SMALL_ROOT_OF_TWO UINT32_C(0x3fb504f3)

static int checks, failures;

static void expect(int holds, const char *what) {
    checks++;
    if (holds) return;
    failures++;
    printf("FAILED: %s\n", what);
}

/* ---- each argument once, in every place */
static int evaluated;
static uint64_t wide(void) { return ++evaluated, pk_pattern64(2.0); }
static uint32_t small(void) { return ++evaluated, pk_pattern32(2.0f); }
static double number(void) { return ++evaluated, 2.0; }
static float small_number(void) { return ++evaluated, 2.0f; }
static int whole(void) { return ++evaluated, 1; }
static uint32_t attribute(void) { return ++evaluated, (uint32_t)PK_ROUND_UP; }
static size_t count(void) { return ++evaluated, (size_t)PK_HEX32_ROOM; }

static void once(const char *what, int arguments) {
    expect(evaluated == arguments, what);
    evaluated = 0;
}

static void arguments_are_evaluated_once(void) {
    uint64_t value;
    uint32_t flags, rest;
    int32_t quotient;
    int n;
    evaluated = 0;
    (void)pk_sqrt64(wide()), (void)pk_sqrt32_flags(small(), &flags), once("an argument", 2);
    (void)pk_fma64_flags(wide(), wide(), wide(), &flags), once("three patterns of 64 bits", 3);
    (void)pk_fma32(small(), small(), small()), once("three patterns of 32 bits", 3);
    (void)pk_scalbn64(wide(), whole()), (void)pk_scalbn32(small(), whole()), once("a pattern and a whole number", 4);
    (void)pk_remquo64(wide(), wide(), &quotient), once("two patterns", 2);
    (void)pk_reduce64(wide(), small(), wide(), &value), once("whole numbers of 64 bits", 3);
    (void)pk_reduce32(small(), small(), small(), &rest), once("whole numbers of 32 bits", 3);
    (void)pk_fma(number(), number(), number()), (void)pk_remquo(number(), number(), &n), once("doubles", 5);
    (void)pk_fmaf_flags(small_number(), small_number(), small_number(), &flags), once("floats", 3);
    (void)pk_scalbn(number(), whole()), (void)pk_scalbnf(small_number(), whole()), once("a number and a whole number", 4);
}

static void arguments_of_parts_are_evaluated_once(void) {
    uint64_t rest;
    uint32_t small_rest;
    int32_t exponent;
    double integral;
    float small_integral;
    int n;
    evaluated = 0;
    (void)pk_ceil64(wide()), (void)pk_modf64(wide(), &rest), (void)pk_frexp64(wide(), &exponent), once("a pattern of 64 bits", 3);
    (void)pk_ceil32(small()), (void)pk_modf32(small(), &small_rest), (void)pk_frexp32(small(), &exponent);
    (void)pk_ilogb64(wide()), (void)pk_ilogb32(small()), once("and of 32, and an exponent of either", 5);
    (void)pk_nextafter64(wide(), wide()), (void)pk_nextafter32(small(), small()), once("a pattern and where it goes", 4);
    (void)pk_modf(number(), &integral), (void)pk_modff(small_number(), &small_integral), once("a number in two parts", 2);
    (void)pk_frexp(number(), &n), (void)pk_frexpf(small_number(), &n), once("a number and its exponent", 2);
    (void)pk_ilogb(number()), (void)pk_ilogbf(small_number()), once("the exponent alone", 2);
    (void)pk_nextafter(number(), number()), (void)pk_nextafterf(small_number(), small_number()), once("next numbers", 4);
}

static void arguments_under_an_attribute_are_evaluated_once(void) {
    uint64_t value;
    uint32_t flags, small_value;
    double result;
    float small_result;
    evaluated = 0;
    (void)pk_sqrt64_rounded(attribute(), wide(), &value, &flags), once("an attribute and a pattern of 64 bits", 2);
    (void)pk_sqrt32_rounded(attribute(), small(), &small_value, &flags), once("an attribute and a pattern of 32 bits", 2);
    (void)pk_fma64_rounded(attribute(), wide(), wide(), wide(), &value, &flags), once("and three of 64 bits", 4);
    (void)pk_fma32_rounded(attribute(), small(), small(), small(), &small_value, &flags), once("and three of 32 bits", 4);
    (void)pk_scalbn64_rounded(attribute(), wide(), whole(), &value, &flags), once("and a whole number, at 64 bits", 3);
    (void)pk_scalbn32_rounded(attribute(), small(), whole(), &small_value, &flags), once("and a whole number, at 32 bits", 3);
    (void)pk_sqrt_rounded(attribute(), number(), &result, &flags), once("and a double", 2);
    (void)pk_sqrtf_rounded(attribute(), small_number(), &small_result, &flags), once("and a float", 2);
    (void)pk_fma_rounded(attribute(), number(), number(), number(), &result, &flags), once("and three doubles", 4);
    (void)pk_fmaf_rounded(attribute(), small_number(), small_number(), small_number(), &small_result, &flags);
    once("and three floats", 4);
    (void)pk_scalbn_rounded(attribute(), number(), whole(), &result, &flags), once("and a double and a whole number", 3);
    (void)pk_scalbnf_rounded(attribute(), small_number(), whole(), &small_result, &flags), once("and a float and one", 3);
}

static void arguments_of_numerals_are_evaluated_once(void) {
    uint8_t bytes[PK_HEX64_ROOM];
    char chars[PK_HEX64_ROOM];
    uint64_t value;
    uint32_t small_value, length;
    size_t size;
    double result;
    float small_result;
    memset(bytes, '0', sizeof bytes), memset(chars, '0', sizeof chars);
    evaluated = 0;
    (void)pk_write_hex64(wide(), bytes, count(), &length), once("a pattern of 64 bits and a room", 2);
    (void)pk_read_hex64(bytes, count(), &value), (void)pk_read_hex32(bytes, count(), &small_value), once("lengths", 2);
    (void)pk_write_hex32(small(), bytes, count(), &length), once("a pattern of 32 bits and a room", 2);
    (void)pk_read_hex64_rounded(attribute(), bytes, count(), &value), once("an attribute and a length, at 64 bits", 2);
    (void)pk_read_hex32_rounded(attribute(), bytes, count(), &small_value), once("an attribute and a length, at 32 bits", 2);
    (void)pk_write_hex(number(), chars, count(), &size), once("a double and a room", 2);
    (void)pk_read_hex(chars, count(), &result), (void)pk_read_hexf(chars, count(), &small_result), once("lengths again", 2);
    (void)pk_write_hexf(small_number(), chars, count(), &size), once("a float and a room", 2);
    (void)pk_read_hex_rounded(attribute(), chars, count(), &result), once("an attribute and a length, to a double", 2);
    (void)pk_read_hexf_rounded(attribute(), chars, count(), &small_result), once("an attribute and a length, to a float", 2);
}

static void side_effects_happen_once(void) {
    uint32_t patterns[3], *at = patterns;
    patterns[0] = patterns[1] = pk_pattern32(4.0f), patterns[2] = 0;
    expect(pk_sqrt32(*at++) == UINT32_C(0x40000000) && at == patterns + 1, "a step in an argument of 32 bits");
    expect(pk_floor32(pk_sqrt32(*at++)) == UINT32_C(0x40000000) && at == patterns + 2, "a step in a call within a call");
}

/* ---- what integers and numbers are taken */
struct packed {
    unsigned int pattern : 31;
    unsigned int rest : 1;
};

static void narrower_arguments_are_taken(void) {
    unsigned char byte = 7;
    short few = -1075;
    uint32_t small_two = 0x40000000, flags;
    uint64_t value;
    struct packed packed;
    packed.pattern = 0x40000000, packed.rest = 0;
    expect(pk_sqrt32(0x40000000) == SMALL_ROOT_OF_TWO && pk_sqrt32(0x40000000u) == SMALL_ROOT_OF_TWO, "constants");
    expect(pk_sqrt32(packed.pattern) == SMALL_ROOT_OF_TWO && packed.rest == 0, "a bit-field");
    expect(pk_sqrt64(0x4000000000000000) == ROOT_OF_TWO && pk_sqrt64(0) == 0, "constants of 64 bits");
    expect(pk_trunc64(small_two) == 0 && pk_floor64_flags(byte, &flags) == 0 && flags == PK_INEXACT, "32 bits for 64");
    expect(pk_scalbn64(pk_pattern64(1.5), few) == 1 && pk_scalbn(1.5, few) > 0, "a short");
    expect(pk_reduce64(1, 4096, byte, &value) == PK_DONE && value == 2, "a byte");
    expect(pk_ilogb64(byte) == -1072 && pk_nextafter64(byte, 0) == 6, "a byte as a pattern");
    expect(pk_sqrt(4.0f) == 2.0 && pk_fma(2.0f, 3.0, 1.0f) == 7.0 && pk_ilogb(8.0f) == 3, "floats for doubles");
}

/* ---- names without their arguments, in a table and alone */
static void names_are_functions(void) {
    uint64_t (*const table[3])(uint64_t) = {pk_sqrt64, &pk_floor64, pk_trunc64};
    uint32_t (*flagged)(uint32_t, uint32_t *) = pk_sqrt32_flags, flags = 0;
    double (*root)(double) = pk_sqrt, (*parts)(double, double *) = pk_modf, rest;
    int (*exponent)(double) = pk_ilogb;
    expect(table[0](pk_pattern64(2.0)) == ROOT_OF_TWO && table[1](1) == 0 && table[2](1) == 0, "a table");
    expect(flagged(pk_pattern32(2.0f), &flags) == SMALL_ROOT_OF_TWO && flags == PK_INEXACT, "a pointer");
    expect(root(4.0) == 2.0 && (pk_sqrt64)(pk_pattern64(2.0)) == ROOT_OF_TWO, "a name in parentheses");
    expect(parts(2.5, &rest) == 0.5 && rest == 2.0 && exponent(0.75) == -1, "pointers to what takes numbers apart");
}

/* ---- flags are overwritten, joined by the caller, and written in their place alone */
static void flags_have_their_place(void) {
    uint32_t flags[3] = {7, UINT32_MAX, 7}, all = PK_OK;
    expect(pk_sqrt_flags(4.0, &flags[1]) == 2.0 && flags[1] == PK_OK, "what was raised before is gone");
    all |= flags[1], (void)pk_sqrtf_flags(2.0f, &flags[1]), all |= flags[1];
    expect(flags[1] == PK_INEXACT && all == PK_INEXACT, "an inexact root");
    (void)pk_scalbn_flags(1.0, 1024, &flags[1]), all |= flags[1];
    expect(flags[1] == (PK_OVERFLOW | PK_INEXACT), "an overflow");
    (void)pk_fmaf_flags(pk_number32(1), 0.5f, 0.0f, &flags[1]), all |= flags[1];
    expect(flags[1] == (PK_UNDERFLOW | PK_INEXACT), "an underflow");
    (void)pk_sqrt64_flags(pk_pattern64(-1.0), &flags[1]), all |= flags[1];
    expect(flags[1] == PK_INVALID && all == (PK_INVALID | PK_OVERFLOW | PK_UNDERFLOW | PK_INEXACT), "all that were raised");
    expect(flags[0] == 7 && flags[2] == 7, "the places beside");
}

/* ---- a second part is written in its place alone */
static void second_parts_have_their_place(void) {
    uint64_t rests[3] = {7, 7, 7};
    uint32_t small_rests[3] = {7, 7, 7};
    int32_t exponents[3] = {7, 7, 7};
    double numbers[3] = {7.0, 7.0, 7.0};
    float small_numbers[3] = {7.0f, 7.0f, 7.0f};
    int plain[3] = {7, 7, 7};
    expect(pk_modf64(pk_pattern64(2.5), &rests[1]) == pk_pattern64(0.5) && rests[1] == pk_pattern64(2.0), "modf at 64");
    expect(pk_modf32(pk_pattern32(2.5f), &small_rests[1]) == pk_pattern32(0.5f), "modf at 32");
    expect(small_rests[1] == pk_pattern32(2.0f) && rests[0] == 7 && rests[2] == 7, "its whole part");
    expect(small_rests[0] == 7 && small_rests[2] == 7, "the places beside the whole parts");
    expect(pk_frexp64(pk_pattern64(6.0), &exponents[1]) == pk_pattern64(0.75) && exponents[1] == 3, "frexp at 64");
    expect(pk_frexp32(pk_pattern32(5.0f), &exponents[1]) == pk_pattern32(0.625f) && exponents[1] == 3, "frexp at 32");
    expect(exponents[0] == 7 && exponents[2] == 7, "the places beside the exponents");
    expect(pk_modf(-2.5, &numbers[1]) == -0.5 && numbers[1] == -2.0, "modf of a double");
    expect(pk_modff(-2.5f, &small_numbers[1]) == -0.5f && small_numbers[1] == -2.0f, "modf of a float");
    expect(numbers[0] == 7.0 && numbers[2] == 7.0 && small_numbers[0] == 7.0f && small_numbers[2] == 7.0f, "beside those");
    expect(pk_frexp(0.375, &plain[1]) == 0.75 && plain[1] == -1, "frexp of a double");
    expect(pk_frexpf(1.0f, &plain[1]) == 0.5f && plain[1] == 1 && plain[0] == 7 && plain[2] == 7, "frexp of a float");
}

/* ---- attributes: by a name of the header, in a variable of its type, as a narrower integer, and through a pointer */
static void attributes_are_taken(void) {
    enum pk_attribute way = PK_ROUND_DOWN;
    unsigned char byte = PK_ROUND_UP;
    uint32_t (*rounded)(uint32_t, uint64_t, uint64_t *, uint32_t *) = pk_sqrt64_rounded, flags;
    uint64_t lower, upper, two = pk_pattern64(2.0);
    double low, high;
    float small_low;
    expect(pk_sqrt64_rounded(way, two, &lower, &flags) == PK_DONE && lower == ROOT_OF_TWO - 1, "a variable");
    expect(pk_sqrt64_rounded(byte, two, &upper, &flags) == PK_DONE && upper == ROOT_OF_TWO, "a byte");
    expect(rounded(PK_ROUND_AWAY, two, &upper, &flags) == PK_DONE && upper == ROOT_OF_TWO, "a pointer to the function");
    expect(pk_sqrt_rounded(PK_ROUND_DOWN, 2.0f, &low, &flags) == PK_DONE && low == pk_number64(lower), "a float for a double");
    expect(pk_sqrt_rounded(3, 2.0, &high, &flags) == PK_DONE && low < high && flags == PK_INEXACT, "a number, and the band");
    expect(pk_scalbnf_rounded(PK_ROUND_ZERO, -1.0f, 128, &small_low, &flags) == PK_DONE, "an overflow toward zero");
    expect(pk_pattern32(small_low) == UINT32_C(0xff7fffff) && flags == (PK_OVERFLOW | PK_INEXACT), "its value and its flags");
}

/* ---- numerals: lengths of any integer type, texts without a terminator, and what is written, read again */
static void numerals_go_there_and_back(void) {
    uint32_t (*reader)(const uint8_t *, size_t, uint64_t *) = pk_read_hex64;
    uint32_t (*writer)(double, char *, size_t, size_t *) = pk_write_hex;
    uint8_t bytes[PK_HEX64_ROOM];
    char chars[PK_HEX64_ROOM];
    uint64_t pattern = 0;
    uint32_t length = 0;
    size_t size = 0;
    double x;
    float small_x;
    int room = PK_HEX64_ROOM;
    unsigned char five = 5;
    expect(pk_read_hex("0x1.8p+1", 8, &x) == PK_DONE && x == 3.0, "a literal");
    expect(pk_read_hexf("0x1p1234", five, &small_x) == PK_DONE && small_x == 2.0f, "the first bytes of one, by a byte");
    expect(pk_write_hex64(pk_pattern64(3.0), bytes, (size_t)room, &length) == PK_DONE && length == 8, "a text is written");
    expect(memcmp(bytes, "0x1.8p+1", 8) == 0 && reader(bytes, length, &pattern) == PK_DONE, "and read again");
    expect(pattern == pk_pattern64(3.0) && writer(0.1f, chars, sizeof chars, &size) == PK_DONE, "through pointers");
    expect(pk_read_hexf_rounded(PK_ROUND_DOWN, chars, size, &small_x) == PK_DONE && small_x == 0.1f, "a float is exact");
    expect(pk_write_hexf(-0.0f, chars, 7u, &size) == PK_DONE && size == 7 && memcmp(chars, "-0x0p+0", 7) == 0, "a zero");
}

int main(void) {
    arguments_are_evaluated_once();
    arguments_of_parts_are_evaluated_once();
    arguments_under_an_attribute_are_evaluated_once();
    arguments_of_numerals_are_evaluated_once();
    side_effects_happen_once();
    narrower_arguments_are_taken();
    names_are_functions();
    flags_have_their_place();
    second_parts_have_their_place();
    attributes_are_taken();
    numerals_go_there_and_back();
    printf("%d checks of uses, %d failed\n", checks, failures);
    return failures != 0;
}
