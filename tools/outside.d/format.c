/* Bit patterns of the three formats: what is a NaN, the powers of two, what a 64-bit integer can hold. */
#include "lines.h"

const int digits[WIDTHS] = {[W64] = 16, [W32] = 8, [W16] = 4};
static const int fraction_bits[WIDTHS] = {[W64] = 52, [W32] = 23, [W16] = 10};
static const int bias[WIDTHS] = {[W64] = 1023, [W32] = 127, [W16] = 15};

uint64_t infinity(enum width width) {
    return (uint64_t)(2 * bias[width] + 1) << fraction_bits[width];
}

uint64_t magnitude(enum width width, uint64_t bits) {
    return bits & ((UINT64_C(1) << (4 * digits[width] - 1)) - 1);
}

bool is_nan(enum width width, uint64_t bits) {
    return magnitude(width, bits) > infinity(width);
}

/* A NaN's sign and payload are an implementation's own choice, so all of them count as one. */
uint64_t canonical(enum width width, uint64_t bits) {
    return is_nan(width, bits) ? infinity(width) | UINT64_C(1) << (fraction_bits[width] - 1) : bits;
}

static int smallest_exponent(enum width width) {
    return 1 - bias[width] - fraction_bits[width];
}

static bool has_power(enum width width, int32_t n) {
    return n <= bias[width] && n >= smallest_exponent(width);
}

/* 2^N, which the format has, subnormal numbers included. */
uint64_t power_of_two(enum width width, int32_t n) {
    int32_t field = n + bias[width];
    return field > 0 ? (uint64_t)field << fraction_bits[width] : UINT64_C(1) << (n - smallest_exponent(width));
}

uint64_t least_normal(enum width width) {
    return power_of_two(width, 1 - bias[width]);
}

/* The exponent of the first digit of a finite number that is not zero. */
static int32_t first_exponent(enum width width, uint64_t bits) {
    uint64_t rest = magnitude(width, bits);
    int32_t exponent = smallest_exponent(width);
    if (rest >= least_normal(width))
        return (int32_t)(rest >> fraction_bits[width]) - bias[width];
    for (; rest > 1; rest >>= 1)
        exponent++;
    return exponent;
}

/* N, or one nearer to zero by which the number's result is the same: past the largest power of two all overflow alike, below a
   quarter of the smallest number all are rounded alike, and zeros, infinities and NaNs are what they are. */
int32_t nearer_power(enum width width, uint64_t bits, int32_t n) {
    if (magnitude(width, bits) == 0 || magnitude(width, bits) >= infinity(width))
        return 0;
    int32_t most = bias[width] + 1 - first_exponent(width, bits);
    int32_t least = smallest_exponent(width) - 3 - first_exponent(width, bits);
    return n > most ? most : n < least ? least : n;
}

/* N, or a part of it that the format has: the number of which N is a nearer power stays normal by it, and so the product is exact. */
int32_t exact_step(enum width width, int32_t n) {
    if (has_power(width, n))
        return n;
    return n > 0 ? bias[width] : 3 - bias[width];
}

/* Whether the operand, rounded to an integer, is sure to be one of 64 bits. */
enum outcome fits_an_integer(enum width width, uint64_t bits) {
    if (magnitude(width, bits) >= infinity(width))
        return NOT_FINITE;
    return has_power(width, 62) && magnitude(width, bits) >= power_of_two(width, 62) ? TOO_LARGE : ANSWERED;
}
