/* Paskerotim from C. Writes each call as a line: the operation with its operands, an arrow, the answer. To build it from the
   repository's root, where `tools/oracle archive` makes the archive and prints its name:

       cc -std=c99 -I include bindings/c/example.c "$(tools/oracle archive)" -o example */
#include <inttypes.h>
#include <stdio.h>

#include "paskerotim.h"

/* How a pattern is written. */
#define P64 "%016" PRIx64
#define P32 "%08" PRIx32

/* The flags are bits: the words of those that are raised, joined by +. */
static void write_flags(uint32_t flags) {
    const char *before = " ";
    if (flags == PK_OK) printf(" OK");
    if (flags & PK_INVALID) printf("%sINVALID", before), before = "+";
    if (flags & PK_DIVBYZERO) printf("%sDIVBYZERO", before), before = "+";
    if (flags & PK_OVERFLOW) printf("%sOVERFLOW", before), before = "+";
    if (flags & PK_UNDERFLOW) printf("%sUNDERFLOW", before), before = "+";
    if (flags & PK_INEXACT) printf("%sINEXACT", before);
    printf("\n");
}

/* A pattern and its flags are one call, at either width. */
static void roots(uint64_t x, uint32_t small) {
    uint32_t flags;
    uint64_t root = pk_sqrt64_flags(x, &flags);
    printf("sqrt64 " P64 " -> " P64, x, root);
    write_flags(flags);
    uint32_t small_root = pk_sqrt32_flags(small, &flags);
    printf("sqrt32 " P32 " -> " P32, small, small_root);
    write_flags(flags);
}

/* Where the flags do not matter, the value alone. ISO C's names take numbers and give numbers. */
static void values(void) {
    uint64_t two = pk_pattern64(2.0);
    printf("# the root of " P64 " is " P64 ", that of 2 is %.17g, as a float %.9g\n", two, pk_sqrt64(two), pk_sqrt(2.0),
           (double)pk_sqrtf(2.0f));
    printf("# fmod of 5.5 by 2 is %g\n", pk_fmod(5.5, 2.0));
}

static void floors(double x) {
    uint32_t flags;
    double whole = pk_floor_flags(x, &flags);
    printf("floor64 " P64 " -> " P64, pk_pattern64(x), pk_pattern64(whole));
    write_flags(flags);
}

/* Rounded once: a product rounded by itself would leave nothing of this sum. 3/4 of the smallest number rounds up to it, and
   2^1024 to infinity. The flags of several calls are joined by |. */
static void rounded_once(void) {
    uint64_t x = UINT64_C(0x3ff0000000000001), z = UINT64_C(0xbff0000000000002), y = pk_pattern64(1.5), one = pk_pattern64(1.0);
    uint32_t flags, all;
    uint64_t value = pk_fma64_flags(x, x, z, &flags);
    printf("fma64 " P64 " " P64 " " P64 " -> " P64, x, x, z, value);
    write_flags(all = flags);
    value = pk_scalbn64_flags(y, -1075, &flags);
    printf("scalbn64 " P64 " -1075 -> " P64, y, value);
    write_flags(flags), all |= flags;
    value = pk_scalbn64_flags(one, 1024, &flags);
    printf("scalbn64 " P64 " 1024 -> " P64, one, value);
    write_flags(flags), all |= flags;
    printf("# all three together raise");
    write_flags(all);
}

/* Under an attribute value and flags go out through pointers, and a number that is no attribute is refused. */
static void under(const char *name, uint32_t attribute, uint64_t x) {
    uint64_t root;
    uint32_t flags, refusal = pk_sqrt64_rounded(attribute, x, &root, &flags);
    printf("sqrt64.%s " P64 " -> %" PRIu32 " " P64, name, x, refusal, root);
    write_flags(flags);
    if (refusal == PK_UNKNOWN_ATTRIBUTE) printf("# refused: %" PRIu32 " is no attribute\n", attribute);
}

/* A tolerance band: no two numbers that hold the exact root between them are nearer to each other. */
static void band(double x) {
    double lower, upper;
    uint32_t flags;
    under("down", PK_ROUND_DOWN, pk_pattern64(x));
    under("up", PK_ROUND_UP, pk_pattern64(x));
    under("7", 7, pk_pattern64(x));
    if (pk_sqrt_rounded(PK_ROUND_DOWN, x, &lower, &flags) != PK_DONE) return;
    if (pk_sqrt_rounded(PK_ROUND_UP, x, &upper, &flags) != PK_DONE) return;
    printf("# the root of %g lies from %.17g to %.17g\n", x, lower, upper);
}

/* A remainder, with its quotient. */
static void remainders(double x, double y) {
    int quotient;
    double rest = pk_remquo(x, y, &quotient);
    printf("remquo64 " P64 " " P64 " -> " P64 " %d\n", pk_pattern64(x), pk_pattern64(y), pk_pattern64(rest), quotient);
}

/* A number in two parts: one is the result, the other goes out through a pointer. */
static void parts(double x) {
    double whole, fraction = pk_modf(x, &whole);
    printf("modf64 " P64 " -> " P64 " " P64 "\n", pk_pattern64(x), pk_pattern64(fraction), pk_pattern64(whole));
    printf("# %g is %g and %g\n", x, whole, fraction);
}

static void power(double x) {
    int exponent;
    double fraction = pk_frexp(x, &exponent);
    printf("frexp64 " P64 " -> " P64 " %d\n", pk_pattern64(x), pk_pattern64(fraction), exponent);
    printf("# %g is %g times 2^%d\n", x, fraction, exponent);
}

/* Its exponent alone, and the next number up. */
static void exponent_and_next(uint64_t x) {
    uint64_t infinite = UINT64_C(0x7ff0000000000000);
    printf("ilogb64 " P64 " -> %" PRId32 "\n", x, pk_ilogb64(x));
    printf("nextafter64 " P64 " " P64 " -> " P64 "\n", x, infinite, pk_nextafter64(x, infinite));
}

/* The reduction may be refused. The value is then 0, and the number says why. */
static void reduction(uint64_t x, uint32_t e, uint64_t y) {
    uint64_t value;
    uint32_t refusal = pk_reduce64(x, e, y, &value);
    printf("reduce64 " P64 " %" PRIu32 " " P64 " -> %" PRIu32 " " P64 "\n", x, e, y, refusal, value);
    if (refusal == PK_SHIFT_TOO_GREAT) printf("# refused: the shift is above %d\n", PK_SHIFT_LIMIT);
}

/* One call does a whole list, or refuses it and leaves the output as it was. */
static void list(void) {
    const uint64_t xs[3] = {pk_pattern64(0.5), pk_pattern64(0.75), pk_pattern64(-2.5)};
    uint64_t ys[3] = {0, 0, 0};
    if (pk_list64(PK_LIST_FLOOR, xs, 3, ys, 2) == PK_LENGTHS_DIFFER) printf("# refused: 3 places read, 2 to write\n");
    if (pk_list64(PK_LIST_FLOOR, xs, 3, ys, 3) != PK_DONE) return;
    for (int i = 0; i < 3; i++) printf("# floor of %g is %g\n", pk_number64(xs[i]), pk_number64(ys[i]));
}

/* A value that is copied by hand, written and read: a text has a length and no end mark. */
static void numeral(double x) {
    char text[PK_HEX64_ROOM];
    size_t length;
    double again;
    if (pk_write_hex(x, text, sizeof text, &length) != PK_DONE) return;
    printf("write64 " P64 " %d -> 0 %d %.*s\n", pk_pattern64(x), PK_HEX64_ROOM, (int)length, (int)length, text);
    uint32_t refusal = pk_read_hex(text, length, &again);
    printf("read64 %.*s -> %" PRIu32 " " P64 "\n", (int)length, text, refusal, pk_pattern64(again));
    if (pk_read_hex("1.5", 3, &again) == PK_NOT_A_NUMERAL) printf("# refused: 1.5 is no hexadecimal numeral\n");
}

int main(void) {
    roots(pk_pattern64(2.0), pk_pattern32(2.0f));
    values();
    floors(-2.5);
    rounded_once();
    band(2.0);
    remainders(-7.0, 2.0);
    parts(-2.5);
    power(8.0);
    exponent_and_next(pk_pattern64(1.0));
    reduction(1, 4096, 7);
    reduction(1, 4097, 3);
    list();
    numeral(3.0);
    return 0;
}
