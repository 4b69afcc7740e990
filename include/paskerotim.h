/* Paskerotim: sqrt, fma, fmod, remquo, scalbn, floor, trunc, ceil, modf, frexp, ilogb and nextafter on bit patterns, a call on
   lists of patterns, a reduction of whole numbers, and hexadecimal numerals read and written, all computed in whole-number
   arithmetic.

   A pattern is the bits of an IEEE 754 number as an unsigned integer: binary64 in a uint64_t, binary32 in a uint32_t. A name
   that ends in a width takes patterns: pk_sqrt64. ISO C's own names take numbers: pk_sqrt a double, pk_sqrtf a float. A name
   that ends in _flags gives the same answer with its flags; one that ends in _rounded takes a rounding attribute first. One
   call answers one question: what has a second part, as flags or an exponent, puts it where the last argument points to. What
   may be refused gives the refusal's number, and its value goes through a pointer too.

   Every function on patterns is proved to give the answer described here, for every input. docs/TRUST.md says what that
   rests on.
   - Every pattern is answered: every NaN, infinity, zero and subnormal number too. Only the reduction, the list call, a call
     under an attribute, and the reader and the writer of numerals refuse, by a number.
   - An answer depends on the arguments alone. What a pointer argument points to is written besides, and nothing else is.
   - No call can fail, and none asks anything of its caller but for its pointers: each must be valid and aligned, and what it
     points to must overlap nothing else that the call reads or writes.

   Tested and not proved: a call needs no rounding mode and sets none, raises no floating-point flag of the processor, keeps
   no state, allocates nothing, and may be made from any thread at any time.

   "Rounded once", where no attribute is named, is rounded to nearest: no number of the format is nearer to the exact value,
   and of two that are equally near the answer is the one whose last bit is 0. From halfway between the largest finite number
   and the power of two above it on, 2^1024 - 2^970 at 64 bits and 2^128 - 2^103 at 32, the answer is infinity. A value that
   rounds to zero gives a zero with the value's sign.

   The canonical NaN is PK_NAN64 or PK_NAN32. It is the only NaN that is ever answered.

   An argument of the wrong kind, which C would convert into another value without a word, does not compile: pk_sqrt64(2.0),
   pk_sqrt(0x4000000000000000). The end of this file says what is refused, and how.

   For C99 and C++. Link libpaskerotim.a; nothing else is needed. */

#ifndef PASKEROTIM_H
#define PASKEROTIM_H

#include <float.h>
#include <stddef.h>
#include <stdint.h>
#include <string.h>

#ifdef __cplusplus
extern "C" {
#endif

/* The canonical NaN. */
#define PK_NAN64 UINT64_C(0x7ff8000000000000)
#define PK_NAN32 UINT32_C(0x7fc00000)

/* The exceptions of IEEE 754, clause 7, as bits. A function whose name ends in _flags overwrites *flags with those that this
   call raises, and PK_OK for none; a caller that gathers those of several calls joins them with |.
   PK_INVALID comes alone, and the answer is then the canonical NaN. A signalling NaN raises it; a quiet NaN by itself raises
   nothing. PK_INEXACT is raised where the answer is not the exact value, and so wherever one of the next two is. Both go by a
   finite value rounded with no bound on the exponent: PK_OVERFLOW is raised where that is past the largest finite number, and
   the answer is then infinity, or under an attribute perhaps the largest number; PK_UNDERFLOW where the answer is inexact and
   the value is tiny, which is that it would not be 0 and lie below the least normal number in magnitude (tininess after
   rounding). No function here raises PK_DIVBYZERO. */
enum pk_flags {
    PK_OK = 0,
    PK_INVALID = 1,
    PK_DIVBYZERO = 4,
    PK_OVERFLOW = 8,
    PK_UNDERFLOW = 16,
    PK_INEXACT = 32
};

/* What pk_list64 gives (0 to 3), the reduction (0, 4 and 5), the reader of numerals (0, 6 and 7), the writer (0 and 8), and a
   function whose name ends in _rounded (0 and 10; the reader 6 and 7 too). The reasons are looked at in the order of their
   numbers, but that 10 comes before all others: the first that holds is given, and none is given otherwise. */
enum pk_refusal {
    PK_DONE = 0,              /* nothing is refused */
    PK_UNKNOWN_OPERATION = 1, /* list: the operation is none of enum pk_list_operation */
    PK_LIST_TOO_LONG = 2,     /* list: either list is longer than PK_LIST_LIMIT places */
    PK_LENGTHS_DIFFER = 3,    /* list: the two lists have not the same length */
    PK_OUT_OF_RANGE = 4,      /* reduction: y is above PK_DIVISOR_LIMIT64 (PK_DIVISOR_LIMIT32), or x is not below 2y */
    PK_SHIFT_TOO_GREAT = 5,   /* reduction: e is above PK_SHIFT_LIMIT */
    PK_TEXT_TOO_LONG = 6,     /* reader: the text is longer than PK_TEXT_LIMIT bytes */
    PK_NOT_A_NUMERAL = 7,     /* reader: the text is outside the grammar */
    PK_ROOM_TOO_SMALL = 8,    /* writer: the output holds fewer bytes than the text needs */
    PK_UNKNOWN_ATTRIBUTE = 10 /* under an attribute: the number is none of enum pk_attribute */
};

/* The rounding attributes of IEEE 754, clause 4.3, by the numbers of RISC-V and SoftFloat; <fenv.h> and FLT_ROUNDS have others.
   A function whose name ends in _rounded takes one before its operands, and rounds once under it: *value becomes the answer,
   *flags its flags, and PK_DONE is given. A number that is no attribute is refused with PK_UNKNOWN_ATTRIBUTE; *value and *flags
   then become 0. So both are always written: each pointer must be valid and aligned, and what they point to must not overlap.
   The reader of numerals has no flags.
   PK_ROUND_EVEN gives what the function without an attribute gives. An exact answer is the same under every attribute, but for
   the sign of fma's zero sums; another has the exact value's sign, as a zero too. PK_ROUND_DOWN and PK_ROUND_UP give the ends
   of a band that holds the exact value; no band is tighter, and where the answer is exact the ends are equal.
   A finite value past the largest finite number is infinity to the nearest, from halfway on, and the largest number toward
   zero; down and up it is the one of these two that lies below or above it (clause 7.4). */
enum pk_attribute {
    PK_ROUND_EVEN = 0, /* to the nearest; of two that are equally near, the one whose last bit is 0 */
    PK_ROUND_ZERO = 1, /* toward zero: the nearest that is not greater in magnitude */
    PK_ROUND_DOWN = 2, /* toward negative infinity: the greatest that is not above the exact value */
    PK_ROUND_UP = 3,   /* toward positive infinity: the least that is not below it */
    PK_ROUND_AWAY = 4  /* to the nearest; of two that are equally near, the one that is greater in magnitude */
};

/* The operations of the list call. */
enum pk_list_operation {
    PK_LIST_SQRT = 1,
    PK_LIST_FLOOR = 2,
    PK_LIST_TRUNC = 3
};

/* The most places of a list; the greatest shift and the greatest divisors of a reduction. */
#define PK_LIST_LIMIT 8192
#define PK_SHIFT_LIMIT 4096
#define PK_DIVISOR_LIMIT64 UINT64_C(0x3fffffffffffffff) /* 2^62 - 1 */
#define PK_DIVISOR_LIMIT32 UINT32_C(0x3fffffff)         /* 2^30 - 1 */

/* The most bytes of a text that is read, and a room that every text that is written fits in, at 64 bits and at 32. */
#define PK_TEXT_LIMIT 64
#define PK_HEX64_ROOM 24
#define PK_HEX32_ROOM 16

/* What ilogb gives for a zero, a NaN and an infinity. ISO C leaves the first two to the C library, whose FP_ILOGB0 and
   FP_ILOGBNAN may be other numbers than these. */
#define PK_ILOGB_ZERO INT32_MIN
#define PK_ILOGB_NAN INT32_MIN
#define PK_ILOGB_INFINITY INT32_MAX

/* ---- Functions on patterns */

/* sqrt: the root of x, rounded once.
   Either zero and +infinity are returned as they are. A NaN, and every x below zero (-0 is not, -infinity is), gives the
   canonical NaN.
   Flags: PK_INVALID for a signalling NaN and for every x below zero; PK_INEXACT where the root is not exact. No other. */
uint64_t pk_sqrt64(uint64_t x);
uint32_t pk_sqrt32(uint32_t x);
uint64_t pk_sqrt64_flags(uint64_t x, uint32_t *flags);
uint32_t pk_sqrt32_flags(uint32_t x, uint32_t *flags);
uint32_t pk_sqrt64_rounded(uint32_t attribute, uint64_t x, uint64_t *value, uint32_t *flags);
uint32_t pk_sqrt32_rounded(uint32_t attribute, uint32_t x, uint32_t *value, uint32_t *flags);

/* floor: the greatest whole number that is not above x, exactly.
   Zeros of either sign and infinities are returned as they are. A NaN gives the canonical NaN. Between 0 and 1 the answer
   is +0, between -1 and 0 it is -1.
   Flags: PK_INVALID for a signalling NaN; PK_INEXACT exactly where x is finite and the answer is another pattern, so for
   every number that is not whole. No other. */
uint64_t pk_floor64(uint64_t x);
uint32_t pk_floor32(uint32_t x);
uint64_t pk_floor64_flags(uint64_t x, uint32_t *flags);
uint32_t pk_floor32_flags(uint32_t x, uint32_t *flags);

/* trunc: x without its fraction, exactly, with the sign of x.
   Zeros of either sign and infinities are returned as they are. A NaN gives the canonical NaN. Between -1 and 0 the answer
   is -0.
   Flags: by the rule of floor's. */
uint64_t pk_trunc64(uint64_t x);
uint32_t pk_trunc32(uint32_t x);
uint64_t pk_trunc64_flags(uint64_t x, uint32_t *flags);
uint32_t pk_trunc32_flags(uint32_t x, uint32_t *flags);

/* ceil: the least whole number that is not below x, exactly.
   Zeros of either sign and infinities are returned as they are. A NaN gives the canonical NaN. Between 0 and 1 the answer
   is 1, between -1 and 0 it is -0.
   Flags: by the rule of floor's. */
uint64_t pk_ceil64(uint64_t x);
uint32_t pk_ceil32(uint32_t x);
uint64_t pk_ceil64_flags(uint64_t x, uint32_t *flags);
uint32_t pk_ceil32_flags(uint32_t x, uint32_t *flags);

/* modf: the fraction of x, exactly. *whole becomes x without it, which is trunc's answer. Both have the sign of x, as zeros
   too.
   An infinity has a fraction of zero. A NaN gives the canonical NaN, and *whole becomes it too. */
uint64_t pk_modf64(uint64_t x, uint64_t *whole);
uint32_t pk_modf32(uint32_t x, uint32_t *whole);

/* fma: x times y plus z, rounded once.
   The canonical NaN if any operand is a NaN, if a zero is multiplied by an infinity, or if an infinite product meets an
   infinite z of the other sign. Otherwise an infinite product, or else an infinite z, is the answer. An exact sum of zero
   is +0, under PK_ROUND_DOWN -0, except where product and z are zeros of one sign: then it is that zero.
   Flags: PK_INVALID if any operand is a signalling NaN, if a zero is multiplied by an infinity, also where z is a quiet NaN,
   or if an infinite product meets an infinite z of the other sign. For finite operands PK_INEXACT, PK_OVERFLOW and
   PK_UNDERFLOW as the sum is rounded. */
uint64_t pk_fma64(uint64_t x, uint64_t y, uint64_t z);
uint32_t pk_fma32(uint32_t x, uint32_t y, uint32_t z);
uint64_t pk_fma64_flags(uint64_t x, uint64_t y, uint64_t z, uint32_t *flags);
uint32_t pk_fma32_flags(uint32_t x, uint32_t y, uint32_t z, uint32_t *flags);
uint32_t pk_fma64_rounded(uint32_t attribute, uint64_t x, uint64_t y, uint64_t z, uint64_t *value, uint32_t *flags);
uint32_t pk_fma32_rounded(uint32_t attribute, uint32_t x, uint32_t y, uint32_t z, uint32_t *value, uint32_t *flags);

/* scalbn: x times 2^n, for every n, rounded once.
   Zeros of either sign and infinities are returned as they are. A NaN gives the canonical NaN.
   Flags: PK_INVALID for a signalling NaN. For a finite x PK_INEXACT, PK_OVERFLOW and PK_UNDERFLOW as x times 2^n is rounded. */
uint64_t pk_scalbn64(uint64_t x, int32_t n);
uint32_t pk_scalbn32(uint32_t x, int32_t n);
uint64_t pk_scalbn64_flags(uint64_t x, int32_t n, uint32_t *flags);
uint32_t pk_scalbn32_flags(uint32_t x, int32_t n, uint32_t *flags);
uint32_t pk_scalbn64_rounded(uint32_t attribute, uint64_t x, int32_t n, uint64_t *value, uint32_t *flags);
uint32_t pk_scalbn32_rounded(uint32_t attribute, uint32_t x, int32_t n, uint32_t *value, uint32_t *flags);

/* frexp: x over a power of two, exactly, so that the answer is from 1/2 up to below 1 in magnitude. *exponent becomes the
   exponent of that power: x is the answer times 2^*exponent.
   Zeros of either sign and infinities are returned as they are. A NaN gives the canonical NaN. For these *exponent becomes 0,
   which ISO C asks for zeros alone and leaves open for the others. */
uint64_t pk_frexp64(uint64_t x, int32_t *exponent);
uint32_t pk_frexp32(uint32_t x, int32_t *exponent);

/* ilogb: the exponent of x, which is the greatest n for which 2^n is not above x in magnitude. That of a subnormal number goes
   on below the least normal number's: to -1074 at 64 bits, -149 at 32.
   A zero gives PK_ILOGB_ZERO, a NaN PK_ILOGB_NAN, an infinity of either sign PK_ILOGB_INFINITY. */
int32_t pk_ilogb64(uint64_t x);
int32_t pk_ilogb32(uint32_t x);

/* nextafter: the number next to x on the side of y; beside the largest number that is infinity. y itself where the two are
   equal, as zeros of either sign are.
   From either zero it is the smallest number with the sign of y. A step to a zero keeps the sign of x. The canonical NaN if x
   or y is a NaN. */
uint64_t pk_nextafter64(uint64_t x, uint64_t y);
uint32_t pk_nextafter32(uint32_t x, uint32_t y);

/* fmod: x minus trunc(x / y) times y, exactly, where x / y is the exact quotient. It has the sign of x, as a zero too.
   The canonical NaN if x is a NaN or infinite, or if y is a NaN or zero. Otherwise x itself where |x| < |y|, so for every
   infinite y. */
uint64_t pk_fmod64(uint64_t x, uint64_t y);
uint32_t pk_fmod32(uint32_t x, uint32_t y);

/* remquo: x minus n times y, exactly, where n is the whole number nearest to the exact quotient x / y, of two that are
   equally near the even one. A zero has the sign of x. The canonical NaN where fmod gives it. A finite x by an infinite y
   gives x itself.
   *quotient becomes the magnitude of n modulo 2^31, negated if the signs of x and y differ; 0 where the answer is the
   canonical NaN, and where y is infinite. */
uint64_t pk_remquo64(uint64_t x, uint64_t y, int32_t *quotient);

/* The reduction: *value becomes (x times 2^e) mod y, of plain whole numbers and not of patterns.
   The answer is PK_DONE, or why it is refused: PK_OUT_OF_RANGE where y is above PK_DIVISOR_LIMIT64 (PK_DIVISOR_LIMIT32) or x
   is not below 2y, so always where y is zero; else PK_SHIFT_TOO_GREAT where e is above PK_SHIFT_LIMIT. *value then becomes
   0. */
uint32_t pk_reduce64(uint64_t x, uint32_t e, uint64_t y, uint64_t *value);
uint32_t pk_reduce32(uint32_t x, uint32_t e, uint32_t y, uint32_t *value);

/* The list call: every place of ys becomes the operation op of the same place of xs, as pk_sqrt64, pk_floor64 or
   pk_trunc64 gives it. The answer is PK_DONE, or why it is refused: PK_UNKNOWN_OPERATION, PK_LIST_TOO_LONG or
   PK_LENGTHS_DIFFER, the first that holds. A refusal leaves ys as it was. xs is never changed. Two empty lists are done.
   xs_len and ys_len count places, not bytes.
   What the caller owes: xs points to xs_len places that may be read and ys to ys_len places that may be written, both
   aligned for uint64_t, and no place is in both lists. A list of length 0 is not looked at, and its pointer may be null.
   Nothing else. */
uint32_t pk_list64(uint32_t op, const uint64_t *xs, size_t xs_len, uint64_t *ys, size_t ys_len);

/* The reader: *value becomes the pattern of the number that a hexadecimal numeral stands for, rounded once. The text is text_len
   bytes in ASCII; it needs no terminator, and a zero byte is a byte like any other. A text is, in lower case and to its end:
   - a sign + or - or none, 0x, hexadecimal digits, at least one, with at most one point among, before or behind them, p, a sign
     + or - or none, and one to five decimal digits. -0x1.8p-3 is -1.5 times 2^-3; a zero keeps the sign written, -0x0p0;
   - or inf, -inf or nan, which gives the canonical NaN.
   The answer is PK_DONE, or why it is refused: PK_TEXT_TOO_LONG where the text has more than PK_TEXT_LIMIT bytes, else
   PK_NOT_A_NUMERAL where it is no such text, so where it is empty. *value then becomes 0. There are no flags.
   What the caller owes: text points to text_len bytes that may be read, and *value is none of them. A text of length 0 is not
   looked at, and its pointer may be null. Nothing else. */
uint32_t pk_read_hex64(const uint8_t *text, size_t text_len, uint64_t *value);
uint32_t pk_read_hex32(const uint8_t *text, size_t text_len, uint32_t *value);
uint32_t pk_read_hex64_rounded(uint32_t attribute, const uint8_t *text, size_t text_len, uint64_t *value);
uint32_t pk_read_hex32_rounded(uint32_t attribute, const uint8_t *text, size_t text_len, uint32_t *value);

/* The writer: out begins with the hexadecimal numeral of x after the call, and *length becomes the number of its bytes. No
   terminator is written; the bytes of out behind the text stay as they were.
   - A number is written as - if it is below zero, 0x1, a point and the digits of its fraction without zeros at their end, or
     neither where none is left, p, + or -, and the exponent in decimal digits without zeros before them: 0x1.8p+1 is 3. At 32
     bits the 23 bits of the fraction stand in six digits from the left: 0x1.000002p+0. A subnormal number begins 0x0. and ends
     p-1022, at 32 bits p-126. Zeros are 0x0p+0 and -0x0p+0.
   - Infinities are inf and -inf, and every NaN is nan.
   The reader gives x back for the text, but for every NaN the canonical one.
   The answer is PK_DONE, or PK_ROOM_TOO_SMALL where out_len is less than the text's length; out then stays as it was, and
   *length becomes 0. A room of PK_HEX64_ROOM (PK_HEX32_ROOM) bytes is always enough.
   What the caller owes: out points to out_len bytes that may be written, and *length is none of them. Where out_len is 0 the
   pointer may be null. Nothing else. */
uint32_t pk_write_hex64(uint64_t x, uint8_t *out, size_t out_len, uint32_t *length);
uint32_t pk_write_hex32(uint32_t x, uint8_t *out, size_t out_len, uint32_t *length);

#ifdef __cplusplus
}
#endif

/* ---- Functions on numbers

   A double is binary64 here and a float binary32. */
#if FLT_RADIX != 2 || DBL_MANT_DIG != 53 || DBL_MAX_EXP != 1024 || FLT_MANT_DIG != 24 || FLT_MAX_EXP != 128
#error "paskerotim.h: double is not binary64, or float is not binary32"
#endif
typedef char pk_double_has_8_bytes[sizeof(double) == 8 ? 1 : -1];
typedef char pk_float_has_4_bytes[sizeof(float) == 4 ? 1 : -1];

/* The pattern of a number, and the number of a pattern: the same bits, copied. */
static inline uint64_t pk_pattern64(double x) { uint64_t bits; memcpy(&bits, &x, sizeof bits); return bits; }
static inline uint32_t pk_pattern32(float x) { uint32_t bits; memcpy(&bits, &x, sizeof bits); return bits; }
static inline double pk_number64(uint64_t bits) { double x; memcpy(&x, &bits, sizeof x); return x; }
static inline float pk_number32(uint32_t bits) { float x; memcpy(&x, &bits, sizeof x); return x; }

/* Under ISO C's names and types: the functions on patterns between these two, and nothing else. They set no errno and raise
   no floating-point flag of the processor, which the flags are not. */
static inline double pk_sqrt(double x) { return pk_number64(pk_sqrt64(pk_pattern64(x))); }
static inline float pk_sqrtf(float x) { return pk_number32(pk_sqrt32(pk_pattern32(x))); }
static inline double pk_floor(double x) { return pk_number64(pk_floor64(pk_pattern64(x))); }
static inline float pk_floorf(float x) { return pk_number32(pk_floor32(pk_pattern32(x))); }
static inline double pk_trunc(double x) { return pk_number64(pk_trunc64(pk_pattern64(x))); }
static inline float pk_truncf(float x) { return pk_number32(pk_trunc32(pk_pattern32(x))); }
static inline double pk_ceil(double x) { return pk_number64(pk_ceil64(pk_pattern64(x))); }
static inline float pk_ceilf(float x) { return pk_number32(pk_ceil32(pk_pattern32(x))); }
static inline double pk_modf(double x, double *whole) {
    uint64_t bits;
    uint64_t fraction = pk_modf64(pk_pattern64(x), &bits);
    *whole = pk_number64(bits);
    return pk_number64(fraction);
}
static inline float pk_modff(float x, float *whole) {
    uint32_t bits;
    uint32_t fraction = pk_modf32(pk_pattern32(x), &bits);
    *whole = pk_number32(bits);
    return pk_number32(fraction);
}
static inline double pk_fma(double x, double y, double z) {
    return pk_number64(pk_fma64(pk_pattern64(x), pk_pattern64(y), pk_pattern64(z)));
}
static inline float pk_fmaf(float x, float y, float z) {
    return pk_number32(pk_fma32(pk_pattern32(x), pk_pattern32(y), pk_pattern32(z)));
}
static inline double pk_scalbn(double x, int n) { return pk_number64(pk_scalbn64(pk_pattern64(x), n)); }
static inline float pk_scalbnf(float x, int n) { return pk_number32(pk_scalbn32(pk_pattern32(x), n)); }
static inline double pk_frexp(double x, int *exponent) {
    int32_t n;
    uint64_t fraction = pk_frexp64(pk_pattern64(x), &n);
    *exponent = n;
    return pk_number64(fraction);
}
static inline float pk_frexpf(float x, int *exponent) {
    int32_t n;
    uint32_t fraction = pk_frexp32(pk_pattern32(x), &n);
    *exponent = n;
    return pk_number32(fraction);
}
static inline int pk_ilogb(double x) { return pk_ilogb64(pk_pattern64(x)); }
static inline int pk_ilogbf(float x) { return pk_ilogb32(pk_pattern32(x)); }
static inline double pk_nextafter(double x, double y) {
    return pk_number64(pk_nextafter64(pk_pattern64(x), pk_pattern64(y)));
}
static inline float pk_nextafterf(float x, float y) {
    return pk_number32(pk_nextafter32(pk_pattern32(x), pk_pattern32(y)));
}
static inline double pk_fmod(double x, double y) { return pk_number64(pk_fmod64(pk_pattern64(x), pk_pattern64(y))); }
static inline float pk_fmodf(float x, float y) { return pk_number32(pk_fmod32(pk_pattern32(x), pk_pattern32(y))); }
static inline double pk_remquo(double x, double y, int *quotient) {
    int32_t n;
    uint64_t value = pk_remquo64(pk_pattern64(x), pk_pattern64(y), &n);
    *quotient = n;
    return pk_number64(value);
}

/* The same with flags. */
static inline double pk_sqrt_flags(double x, uint32_t *flags) { return pk_number64(pk_sqrt64_flags(pk_pattern64(x), flags)); }
static inline float pk_sqrtf_flags(float x, uint32_t *flags) { return pk_number32(pk_sqrt32_flags(pk_pattern32(x), flags)); }
static inline double pk_floor_flags(double x, uint32_t *flags) {
    return pk_number64(pk_floor64_flags(pk_pattern64(x), flags));
}
static inline float pk_floorf_flags(float x, uint32_t *flags) {
    return pk_number32(pk_floor32_flags(pk_pattern32(x), flags));
}
static inline double pk_trunc_flags(double x, uint32_t *flags) {
    return pk_number64(pk_trunc64_flags(pk_pattern64(x), flags));
}
static inline float pk_truncf_flags(float x, uint32_t *flags) {
    return pk_number32(pk_trunc32_flags(pk_pattern32(x), flags));
}
static inline double pk_ceil_flags(double x, uint32_t *flags) { return pk_number64(pk_ceil64_flags(pk_pattern64(x), flags)); }
static inline float pk_ceilf_flags(float x, uint32_t *flags) { return pk_number32(pk_ceil32_flags(pk_pattern32(x), flags)); }
static inline double pk_fma_flags(double x, double y, double z, uint32_t *flags) {
    return pk_number64(pk_fma64_flags(pk_pattern64(x), pk_pattern64(y), pk_pattern64(z), flags));
}
static inline float pk_fmaf_flags(float x, float y, float z, uint32_t *flags) {
    return pk_number32(pk_fma32_flags(pk_pattern32(x), pk_pattern32(y), pk_pattern32(z), flags));
}
static inline double pk_scalbn_flags(double x, int n, uint32_t *flags) {
    return pk_number64(pk_scalbn64_flags(pk_pattern64(x), n, flags));
}
static inline float pk_scalbnf_flags(float x, int n, uint32_t *flags) {
    return pk_number32(pk_scalbn32_flags(pk_pattern32(x), n, flags));
}

/* The same under an attribute. What a refusal writes is the number +0. */
static inline uint32_t pk_sqrt_rounded(uint32_t attribute, double x, double *value, uint32_t *flags) {
    uint64_t bits;
    uint32_t refusal = pk_sqrt64_rounded(attribute, pk_pattern64(x), &bits, flags);
    *value = pk_number64(bits);
    return refusal;
}
static inline uint32_t pk_sqrtf_rounded(uint32_t attribute, float x, float *value, uint32_t *flags) {
    uint32_t bits;
    uint32_t refusal = pk_sqrt32_rounded(attribute, pk_pattern32(x), &bits, flags);
    *value = pk_number32(bits);
    return refusal;
}
static inline uint32_t pk_fma_rounded(uint32_t attribute, double x, double y, double z, double *value, uint32_t *flags) {
    uint64_t bits;
    uint32_t refusal = pk_fma64_rounded(attribute, pk_pattern64(x), pk_pattern64(y), pk_pattern64(z), &bits, flags);
    *value = pk_number64(bits);
    return refusal;
}
static inline uint32_t pk_fmaf_rounded(uint32_t attribute, float x, float y, float z, float *value, uint32_t *flags) {
    uint32_t bits;
    uint32_t refusal = pk_fma32_rounded(attribute, pk_pattern32(x), pk_pattern32(y), pk_pattern32(z), &bits, flags);
    *value = pk_number32(bits);
    return refusal;
}
static inline uint32_t pk_scalbn_rounded(uint32_t attribute, double x, int n, double *value, uint32_t *flags) {
    uint64_t bits;
    uint32_t refusal = pk_scalbn64_rounded(attribute, pk_pattern64(x), n, &bits, flags);
    *value = pk_number64(bits);
    return refusal;
}
static inline uint32_t pk_scalbnf_rounded(uint32_t attribute, float x, int n, float *value, uint32_t *flags) {
    uint32_t bits;
    uint32_t refusal = pk_scalbn32_rounded(attribute, pk_pattern32(x), n, &bits, flags);
    *value = pk_number32(bits);
    return refusal;
}

/* Numerals of numbers, with texts of char as ISO C has them; neither is a terminator read, nor is one written. What a refusal
   writes is the number +0, and the length 0. */
static inline uint32_t pk_read_hex(const char *text, size_t text_len, double *value) {
    uint64_t bits;
    uint32_t refusal = pk_read_hex64((const uint8_t *)text, text_len, &bits);
    *value = pk_number64(bits);
    return refusal;
}
static inline uint32_t pk_read_hexf(const char *text, size_t text_len, float *value) {
    uint32_t bits;
    uint32_t refusal = pk_read_hex32((const uint8_t *)text, text_len, &bits);
    *value = pk_number32(bits);
    return refusal;
}
static inline uint32_t pk_read_hex_rounded(uint32_t attribute, const char *text, size_t text_len, double *value) {
    uint64_t bits;
    uint32_t refusal = pk_read_hex64_rounded(attribute, (const uint8_t *)text, text_len, &bits);
    *value = pk_number64(bits);
    return refusal;
}
static inline uint32_t pk_read_hexf_rounded(uint32_t attribute, const char *text, size_t text_len, float *value) {
    uint32_t bits;
    uint32_t refusal = pk_read_hex32_rounded(attribute, (const uint8_t *)text, text_len, &bits);
    *value = pk_number32(bits);
    return refusal;
}
static inline uint32_t pk_write_hex(double x, char *out, size_t out_len, size_t *length) {
    uint32_t n;
    uint32_t refusal = pk_write_hex64(pk_pattern64(x), (uint8_t *)out, out_len, &n);
    *length = n;
    return refusal;
}
static inline uint32_t pk_write_hexf(float x, char *out, size_t out_len, size_t *length) {
    uint32_t n;
    uint32_t refusal = pk_write_hex32(pk_pattern32(x), (uint8_t *)out, out_len, &n);
    *length = n;
    return refusal;
}

/* ---- What does not compile

   pk_error_takes_a_pattern_not_a_number: a floating argument where a pattern or another whole number is taken.
   pk_error_takes_a_number_not_a_pattern: an integer where a number is taken; write pk_sqrt(2.0), not pk_sqrt(2).
   pk_error_takes_nothing_wider: an integer of 64 bits where 32 are taken, a double where a float is, a long double. What is
   meant is said by a conversion: pk_sqrt32((uint32_t)x).

   Narrower integers, int constants as 0x40000000, and a float for a double are taken as ever. pk_list64 takes no pattern by
   value and is left as it is.
   In C++11 and later these are deleted functions. A function's name by itself is then one of several; as an argument to a
   template it needs its type, or a lambda around it.
   In C these are macros of the functions' names, which evaluate each argument once; (pk_sqrt64)(x) and &pk_sqrt64 are the
   functions. The first check is in every C, the others from C11 on, with GCC and Clang. */
#ifdef __cplusplus
#if __cplusplus >= 201103L

#include <type_traits>
#include <utility>

namespace pk_checks {

/* A class counts as what unary plus makes of it, so one that converts to a double as a double. */
template <typename A> auto counts(int) -> decltype(+std::declval<A>());
template <typename A> A counts(long);

/* What is wrong with an argument A for a parameter P: 0 nothing, else the number of an error below. */
template <typename P, typename A, typename C = decltype(counts<A>(0))>
struct fault : std::integral_constant<int, !std::is_arithmetic<P>::value || !std::is_arithmetic<C>::value ? 0
    : std::is_integral<P>::value && !std::is_integral<C>::value ? 1
    : !std::is_integral<P>::value && std::is_integral<C>::value ? 2
    : sizeof(P) < sizeof(C) ? 3 : 0> {};

/* What is wrong with the arguments of a call: the first fault. */
template <typename F, typename... A> struct faults : std::integral_constant<int, 0> {};
template <typename R, typename P, typename... Ps, typename A, typename... As>
struct faults<R(P, Ps...), A, As...>
    : std::integral_constant<int, fault<P, A>::value != 0 ? fault<P, A>::value : faults<R(Ps...), As...>::value> {};

template <int number, typename F, typename... A>
using where = typename std::enable_if<faults<F, A...>::value == number>::type;

} // namespace pk_checks

/* The error stands in the compiler's message as the name of the argument's type. */
#define PK_REFUSED_(f, number, error) \
    template <typename... error> pk_checks::where<number, pk_checks::f##_type, error...> f(error...) = delete
#define PK_CHECKED_(f) \
    namespace pk_checks { typedef decltype(f) f##_type; } \
    PK_REFUSED_(f, 1, pk_error_takes_a_pattern_not_a_number); \
    PK_REFUSED_(f, 2, pk_error_takes_a_number_not_a_pattern); \
    PK_REFUSED_(f, 3, pk_error_takes_nothing_wider)
PK_CHECKED_(pk_sqrt64); PK_CHECKED_(pk_sqrt32); PK_CHECKED_(pk_sqrt64_flags); PK_CHECKED_(pk_sqrt32_flags);
PK_CHECKED_(pk_floor64); PK_CHECKED_(pk_floor32); PK_CHECKED_(pk_floor64_flags); PK_CHECKED_(pk_floor32_flags);
PK_CHECKED_(pk_trunc64); PK_CHECKED_(pk_trunc32); PK_CHECKED_(pk_trunc64_flags); PK_CHECKED_(pk_trunc32_flags);
PK_CHECKED_(pk_ceil64); PK_CHECKED_(pk_ceil32); PK_CHECKED_(pk_ceil64_flags); PK_CHECKED_(pk_ceil32_flags);
PK_CHECKED_(pk_modf64); PK_CHECKED_(pk_modf32); PK_CHECKED_(pk_frexp64); PK_CHECKED_(pk_frexp32);
PK_CHECKED_(pk_ilogb64); PK_CHECKED_(pk_ilogb32); PK_CHECKED_(pk_nextafter64); PK_CHECKED_(pk_nextafter32);
PK_CHECKED_(pk_fma64); PK_CHECKED_(pk_fma32); PK_CHECKED_(pk_fma64_flags); PK_CHECKED_(pk_fma32_flags);
PK_CHECKED_(pk_scalbn64); PK_CHECKED_(pk_scalbn32); PK_CHECKED_(pk_scalbn64_flags); PK_CHECKED_(pk_scalbn32_flags);
PK_CHECKED_(pk_sqrt64_rounded); PK_CHECKED_(pk_sqrt32_rounded); PK_CHECKED_(pk_fma64_rounded); PK_CHECKED_(pk_fma32_rounded);
PK_CHECKED_(pk_scalbn64_rounded); PK_CHECKED_(pk_scalbn32_rounded);
PK_CHECKED_(pk_fmod64); PK_CHECKED_(pk_fmod32); PK_CHECKED_(pk_remquo64);
PK_CHECKED_(pk_reduce64); PK_CHECKED_(pk_reduce32);
PK_CHECKED_(pk_read_hex64); PK_CHECKED_(pk_read_hex32); PK_CHECKED_(pk_read_hex64_rounded); PK_CHECKED_(pk_read_hex32_rounded);
PK_CHECKED_(pk_write_hex64); PK_CHECKED_(pk_write_hex32);
PK_CHECKED_(pk_pattern64); PK_CHECKED_(pk_pattern32); PK_CHECKED_(pk_number64); PK_CHECKED_(pk_number32);
PK_CHECKED_(pk_sqrt); PK_CHECKED_(pk_sqrtf); PK_CHECKED_(pk_sqrt_flags); PK_CHECKED_(pk_sqrtf_flags);
PK_CHECKED_(pk_floor); PK_CHECKED_(pk_floorf); PK_CHECKED_(pk_floor_flags); PK_CHECKED_(pk_floorf_flags);
PK_CHECKED_(pk_trunc); PK_CHECKED_(pk_truncf); PK_CHECKED_(pk_trunc_flags); PK_CHECKED_(pk_truncf_flags);
PK_CHECKED_(pk_ceil); PK_CHECKED_(pk_ceilf); PK_CHECKED_(pk_ceil_flags); PK_CHECKED_(pk_ceilf_flags);
PK_CHECKED_(pk_modf); PK_CHECKED_(pk_modff); PK_CHECKED_(pk_frexp); PK_CHECKED_(pk_frexpf);
PK_CHECKED_(pk_ilogb); PK_CHECKED_(pk_ilogbf); PK_CHECKED_(pk_nextafter); PK_CHECKED_(pk_nextafterf);
PK_CHECKED_(pk_fma); PK_CHECKED_(pk_fmaf); PK_CHECKED_(pk_fma_flags); PK_CHECKED_(pk_fmaf_flags);
PK_CHECKED_(pk_scalbn); PK_CHECKED_(pk_scalbnf); PK_CHECKED_(pk_scalbn_flags); PK_CHECKED_(pk_scalbnf_flags);
PK_CHECKED_(pk_sqrt_rounded); PK_CHECKED_(pk_sqrtf_rounded); PK_CHECKED_(pk_fma_rounded); PK_CHECKED_(pk_fmaf_rounded);
PK_CHECKED_(pk_scalbn_rounded); PK_CHECKED_(pk_scalbnf_rounded);
PK_CHECKED_(pk_fmod); PK_CHECKED_(pk_fmodf); PK_CHECKED_(pk_remquo);
PK_CHECKED_(pk_read_hex); PK_CHECKED_(pk_read_hexf); PK_CHECKED_(pk_read_hex_rounded); PK_CHECKED_(pk_read_hexf_rounded);
PK_CHECKED_(pk_write_hex); PK_CHECKED_(pk_write_hexf);
#undef PK_CHECKED_
#undef PK_REFUSED_

#endif
#else

/* C has no | of a floating argument: the error names this macro, or its type. */
typedef int pk_error_takes_a_pattern_not_a_number;
#define PK_TAKES_A_PATTERN_NOT_A_NUMBER_(x) ((x) | (pk_error_takes_a_pattern_not_a_number)0)
#define PK_64_(x) PK_TAKES_A_PATTERN_NOT_A_NUMBER_(x)
#define PK_SIZE_(x) PK_TAKES_A_PATTERN_NOT_A_NUMBER_(x)

#if defined __STDC_VERSION__ && __STDC_VERSION__ >= 201112L && defined __GNUC__
/* The argument once, in a variable of its own name, whose type decides: the value, or a struct that no parameter takes. (With
   the argument in the selection as well, calls within calls would double the text each time.) */
struct pk_error_takes_a_pattern_not_a_number { char unused; };
struct pk_error_takes_a_number_not_a_pattern { char unused; };
struct pk_error_takes_nothing_wider { char unused; };
#define PK_NO_NUMBER_ (struct pk_error_takes_a_pattern_not_a_number){0}
#define PK_NO_PATTERN_ (struct pk_error_takes_a_number_not_a_pattern){0}
#define PK_NO_WIDER_ (struct pk_error_takes_nothing_wider){0}
#define PK_JOINED_(a, b) a##b
#define PK_NAME_(n) PK_JOINED_(pk_argument_, n)
#define PK_ONCE_(v, x, ...) __extension__({ __auto_type v = +(x); _Generic(v, __VA_ARGS__); })
#define PK_WIDE_ long: PK_NO_WIDER_, unsigned long: PK_NO_WIDER_, long long: PK_NO_WIDER_, unsigned long long: PK_NO_WIDER_
#define PK_INTEGER_(v, x, T) PK_ONCE_(v, x, int: (T)v, unsigned int: (T)v, PK_WIDE_, default: PK_NO_NUMBER_)
#define PK_DOUBLES_(v, x) PK_ONCE_(v, x, float: (double)v, double: v, long double: PK_NO_WIDER_, default: PK_NO_PATTERN_)
#define PK_FLOATS_(v, x) PK_ONCE_(v, x, float: v, double: PK_NO_WIDER_, long double: PK_NO_WIDER_, default: PK_NO_PATTERN_)
#define PK_32_(x) PK_INTEGER_(PK_NAME_(__COUNTER__), x, uint32_t)
#define PK_INT_(x) PK_INTEGER_(PK_NAME_(__COUNTER__), x, int32_t)
#define PK_DOUBLE_(x) PK_DOUBLES_(PK_NAME_(__COUNTER__), x)
#define PK_FLOAT_(x) PK_FLOATS_(PK_NAME_(__COUNTER__), x)
#else
#define PK_32_(x) PK_TAKES_A_PATTERN_NOT_A_NUMBER_(x)
#define PK_INT_(x) PK_TAKES_A_PATTERN_NOT_A_NUMBER_(x)
#define PK_DOUBLE_(x) (x)
#define PK_FLOAT_(x) (x)
#endif

#define pk_sqrt64(x) pk_sqrt64(PK_64_(x))
#define pk_sqrt32(x) pk_sqrt32(PK_32_(x))
#define pk_sqrt64_flags(x, flags) pk_sqrt64_flags(PK_64_(x), flags)
#define pk_sqrt32_flags(x, flags) pk_sqrt32_flags(PK_32_(x), flags)
#define pk_sqrt64_rounded(attribute, x, value, flags) pk_sqrt64_rounded(PK_32_(attribute), PK_64_(x), value, flags)
#define pk_sqrt32_rounded(attribute, x, value, flags) pk_sqrt32_rounded(PK_32_(attribute), PK_32_(x), value, flags)
#define pk_floor64(x) pk_floor64(PK_64_(x))
#define pk_floor32(x) pk_floor32(PK_32_(x))
#define pk_floor64_flags(x, flags) pk_floor64_flags(PK_64_(x), flags)
#define pk_floor32_flags(x, flags) pk_floor32_flags(PK_32_(x), flags)
#define pk_trunc64(x) pk_trunc64(PK_64_(x))
#define pk_trunc32(x) pk_trunc32(PK_32_(x))
#define pk_trunc64_flags(x, flags) pk_trunc64_flags(PK_64_(x), flags)
#define pk_trunc32_flags(x, flags) pk_trunc32_flags(PK_32_(x), flags)
#define pk_ceil64(x) pk_ceil64(PK_64_(x))
#define pk_ceil32(x) pk_ceil32(PK_32_(x))
#define pk_ceil64_flags(x, flags) pk_ceil64_flags(PK_64_(x), flags)
#define pk_ceil32_flags(x, flags) pk_ceil32_flags(PK_32_(x), flags)
#define pk_modf64(x, whole) pk_modf64(PK_64_(x), whole)
#define pk_modf32(x, whole) pk_modf32(PK_32_(x), whole)
#define pk_fma64(x, y, z) pk_fma64(PK_64_(x), PK_64_(y), PK_64_(z))
#define pk_fma32(x, y, z) pk_fma32(PK_32_(x), PK_32_(y), PK_32_(z))
#define pk_fma64_flags(x, y, z, flags) pk_fma64_flags(PK_64_(x), PK_64_(y), PK_64_(z), flags)
#define pk_fma32_flags(x, y, z, flags) pk_fma32_flags(PK_32_(x), PK_32_(y), PK_32_(z), flags)
#define pk_fma64_rounded(attribute, x, y, z, value, flags) \
    pk_fma64_rounded(PK_32_(attribute), PK_64_(x), PK_64_(y), PK_64_(z), value, flags)
#define pk_fma32_rounded(attribute, x, y, z, value, flags) \
    pk_fma32_rounded(PK_32_(attribute), PK_32_(x), PK_32_(y), PK_32_(z), value, flags)
#define pk_scalbn64(x, n) pk_scalbn64(PK_64_(x), PK_INT_(n))
#define pk_scalbn32(x, n) pk_scalbn32(PK_32_(x), PK_INT_(n))
#define pk_scalbn64_flags(x, n, flags) pk_scalbn64_flags(PK_64_(x), PK_INT_(n), flags)
#define pk_scalbn32_flags(x, n, flags) pk_scalbn32_flags(PK_32_(x), PK_INT_(n), flags)
#define pk_scalbn64_rounded(attribute, x, n, value, flags) \
    pk_scalbn64_rounded(PK_32_(attribute), PK_64_(x), PK_INT_(n), value, flags)
#define pk_scalbn32_rounded(attribute, x, n, value, flags) \
    pk_scalbn32_rounded(PK_32_(attribute), PK_32_(x), PK_INT_(n), value, flags)
#define pk_frexp64(x, exponent) pk_frexp64(PK_64_(x), exponent)
#define pk_frexp32(x, exponent) pk_frexp32(PK_32_(x), exponent)
#define pk_ilogb64(x) pk_ilogb64(PK_64_(x))
#define pk_ilogb32(x) pk_ilogb32(PK_32_(x))
#define pk_nextafter64(x, y) pk_nextafter64(PK_64_(x), PK_64_(y))
#define pk_nextafter32(x, y) pk_nextafter32(PK_32_(x), PK_32_(y))
#define pk_fmod64(x, y) pk_fmod64(PK_64_(x), PK_64_(y))
#define pk_fmod32(x, y) pk_fmod32(PK_32_(x), PK_32_(y))
#define pk_remquo64(x, y, quotient) pk_remquo64(PK_64_(x), PK_64_(y), quotient)
#define pk_reduce64(x, e, y, value) pk_reduce64(PK_64_(x), PK_32_(e), PK_64_(y), value)
#define pk_reduce32(x, e, y, value) pk_reduce32(PK_32_(x), PK_32_(e), PK_32_(y), value)
#define pk_read_hex64(text, text_len, value) pk_read_hex64(text, PK_SIZE_(text_len), value)
#define pk_read_hex32(text, text_len, value) pk_read_hex32(text, PK_SIZE_(text_len), value)
#define pk_read_hex64_rounded(attribute, text, text_len, value) \
    pk_read_hex64_rounded(PK_32_(attribute), text, PK_SIZE_(text_len), value)
#define pk_read_hex32_rounded(attribute, text, text_len, value) \
    pk_read_hex32_rounded(PK_32_(attribute), text, PK_SIZE_(text_len), value)
#define pk_write_hex64(x, out, out_len, length) pk_write_hex64(PK_64_(x), out, PK_SIZE_(out_len), length)
#define pk_write_hex32(x, out, out_len, length) pk_write_hex32(PK_32_(x), out, PK_SIZE_(out_len), length)

#define pk_pattern64(x) pk_pattern64(PK_DOUBLE_(x))
#define pk_pattern32(x) pk_pattern32(PK_FLOAT_(x))
#define pk_number64(bits) pk_number64(PK_64_(bits))
#define pk_number32(bits) pk_number32(PK_32_(bits))
#define pk_sqrt(x) pk_sqrt(PK_DOUBLE_(x))
#define pk_sqrtf(x) pk_sqrtf(PK_FLOAT_(x))
#define pk_sqrt_flags(x, flags) pk_sqrt_flags(PK_DOUBLE_(x), flags)
#define pk_sqrtf_flags(x, flags) pk_sqrtf_flags(PK_FLOAT_(x), flags)
#define pk_sqrt_rounded(attribute, x, value, flags) pk_sqrt_rounded(PK_32_(attribute), PK_DOUBLE_(x), value, flags)
#define pk_sqrtf_rounded(attribute, x, value, flags) pk_sqrtf_rounded(PK_32_(attribute), PK_FLOAT_(x), value, flags)
#define pk_floor(x) pk_floor(PK_DOUBLE_(x))
#define pk_floorf(x) pk_floorf(PK_FLOAT_(x))
#define pk_floor_flags(x, flags) pk_floor_flags(PK_DOUBLE_(x), flags)
#define pk_floorf_flags(x, flags) pk_floorf_flags(PK_FLOAT_(x), flags)
#define pk_trunc(x) pk_trunc(PK_DOUBLE_(x))
#define pk_truncf(x) pk_truncf(PK_FLOAT_(x))
#define pk_trunc_flags(x, flags) pk_trunc_flags(PK_DOUBLE_(x), flags)
#define pk_truncf_flags(x, flags) pk_truncf_flags(PK_FLOAT_(x), flags)
#define pk_ceil(x) pk_ceil(PK_DOUBLE_(x))
#define pk_ceilf(x) pk_ceilf(PK_FLOAT_(x))
#define pk_ceil_flags(x, flags) pk_ceil_flags(PK_DOUBLE_(x), flags)
#define pk_ceilf_flags(x, flags) pk_ceilf_flags(PK_FLOAT_(x), flags)
#define pk_modf(x, whole) pk_modf(PK_DOUBLE_(x), whole)
#define pk_modff(x, whole) pk_modff(PK_FLOAT_(x), whole)
#define pk_fma(x, y, z) pk_fma(PK_DOUBLE_(x), PK_DOUBLE_(y), PK_DOUBLE_(z))
#define pk_fmaf(x, y, z) pk_fmaf(PK_FLOAT_(x), PK_FLOAT_(y), PK_FLOAT_(z))
#define pk_fma_flags(x, y, z, flags) pk_fma_flags(PK_DOUBLE_(x), PK_DOUBLE_(y), PK_DOUBLE_(z), flags)
#define pk_fmaf_flags(x, y, z, flags) pk_fmaf_flags(PK_FLOAT_(x), PK_FLOAT_(y), PK_FLOAT_(z), flags)
#define pk_fma_rounded(attribute, x, y, z, value, flags) \
    pk_fma_rounded(PK_32_(attribute), PK_DOUBLE_(x), PK_DOUBLE_(y), PK_DOUBLE_(z), value, flags)
#define pk_fmaf_rounded(attribute, x, y, z, value, flags) \
    pk_fmaf_rounded(PK_32_(attribute), PK_FLOAT_(x), PK_FLOAT_(y), PK_FLOAT_(z), value, flags)
#define pk_scalbn(x, n) pk_scalbn(PK_DOUBLE_(x), PK_INT_(n))
#define pk_scalbnf(x, n) pk_scalbnf(PK_FLOAT_(x), PK_INT_(n))
#define pk_scalbn_flags(x, n, flags) pk_scalbn_flags(PK_DOUBLE_(x), PK_INT_(n), flags)
#define pk_scalbnf_flags(x, n, flags) pk_scalbnf_flags(PK_FLOAT_(x), PK_INT_(n), flags)
#define pk_scalbn_rounded(attribute, x, n, value, flags) \
    pk_scalbn_rounded(PK_32_(attribute), PK_DOUBLE_(x), PK_INT_(n), value, flags)
#define pk_scalbnf_rounded(attribute, x, n, value, flags) \
    pk_scalbnf_rounded(PK_32_(attribute), PK_FLOAT_(x), PK_INT_(n), value, flags)
#define pk_frexp(x, exponent) pk_frexp(PK_DOUBLE_(x), exponent)
#define pk_frexpf(x, exponent) pk_frexpf(PK_FLOAT_(x), exponent)
#define pk_ilogb(x) pk_ilogb(PK_DOUBLE_(x))
#define pk_ilogbf(x) pk_ilogbf(PK_FLOAT_(x))
#define pk_nextafter(x, y) pk_nextafter(PK_DOUBLE_(x), PK_DOUBLE_(y))
#define pk_nextafterf(x, y) pk_nextafterf(PK_FLOAT_(x), PK_FLOAT_(y))
#define pk_fmod(x, y) pk_fmod(PK_DOUBLE_(x), PK_DOUBLE_(y))
#define pk_fmodf(x, y) pk_fmodf(PK_FLOAT_(x), PK_FLOAT_(y))
#define pk_remquo(x, y, quotient) pk_remquo(PK_DOUBLE_(x), PK_DOUBLE_(y), quotient)
#define pk_read_hex(text, text_len, value) pk_read_hex(text, PK_SIZE_(text_len), value)
#define pk_read_hexf(text, text_len, value) pk_read_hexf(text, PK_SIZE_(text_len), value)
#define pk_read_hex_rounded(attribute, text, text_len, value) \
    pk_read_hex_rounded(PK_32_(attribute), text, PK_SIZE_(text_len), value)
#define pk_read_hexf_rounded(attribute, text, text_len, value) \
    pk_read_hexf_rounded(PK_32_(attribute), text, PK_SIZE_(text_len), value)
#define pk_write_hex(x, out, out_len, length) pk_write_hex(PK_DOUBLE_(x), out, PK_SIZE_(out_len), length)
#define pk_write_hexf(x, out, out_len, length) pk_write_hexf(PK_FLOAT_(x), out, PK_SIZE_(out_len), length)

#endif

#endif
