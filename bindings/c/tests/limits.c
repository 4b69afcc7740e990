/* The calls that refuse, at their limits and by the names of the header: what is refused, what is done, and which places
   are written. Exit status: 0 all is as it must be, 1 something is not. */
#include <stdio.h>
#include <string.h>

#include "paskerotim.h"
#include "paskerotim.h" /* a second time, which must change nothing */

static int checks, failures;

static void expect(int holds, const char *what) {
    checks++;
    if (holds) return;
    failures++;
    printf("FAILED: %s\n", what);
}

/* ---- the list call. Every place read is +infinity, which each operation returns as it is. Before and after the places of
   a list there is one more, which no call may write. */
#define INFINITE UINT64_C(0x7ff0000000000000)
#define UNTOUCHED UINT64_C(0x0123456789abcdef)
#define UNTOUCHED32 UINT32_C(0x89abcdef)
#define ROOM (PK_LIST_LIMIT + 1)

static uint64_t input[ROOM + 2], output[ROOM + 2];
static uint64_t *const xs = input + 1, *const ys = output + 1;

static int all_are(const uint64_t *places, size_t count, uint64_t value) {
    size_t i;
    for (i = 0; i < count; i++) {
        if (places[i] != value) return 0;
    }
    return 1;
}

/* A call on fresh lists must give the number, write all of the output if it is done and nothing else, and leave the input. */
static void list(const char *what, uint32_t number, uint32_t op, const uint64_t *from, size_t from_len, uint64_t *to, size_t to_len) {
    size_t i, written = number == PK_DONE ? to_len : 0;
    for (i = 0; i < ROOM + 2; i++) {
        input[i] = INFINITE;
        output[i] = UNTOUCHED;
    }
    expect(pk_list64(op, from, from_len, to, to_len) == number, what);
    expect(all_are(input, ROOM + 2, INFINITE), what);
    expect(output[0] == UNTOUCHED && all_are(ys, written, INFINITE), what);
    expect(all_are(ys + written, ROOM + 1 - written, UNTOUCHED), what);
}

static void lists(uint32_t op) {
    list("no place", PK_DONE, op, xs, 0, ys, 0);
    list("one place", PK_DONE, op, xs, 1, ys, 1);
    list("8,192 places", PK_DONE, op, xs, 8192, ys, 8192);
    list("8,193 places", PK_LIST_TOO_LONG, op, xs, 8193, ys, 8193);
    list("8,193 places to read", PK_LIST_TOO_LONG, op, xs, 8193, ys, 1);
    list("8,193 places to write", PK_LIST_TOO_LONG, op, xs, 1, ys, 8193);
    list("more places to read", PK_LENGTHS_DIFFER, op, xs, 3, ys, 2);
    list("more places to write", PK_LENGTHS_DIFFER, op, xs, 2, ys, 3);
    list("null and null", PK_DONE, op, NULL, 0, NULL, 0);
    list("null to read", PK_LENGTHS_DIFFER, op, NULL, 0, ys, 1);
    list("null to write", PK_LENGTHS_DIFFER, op, xs, 1, NULL, 0);
    list("null to write, and too much to read", PK_LIST_TOO_LONG, op, xs, 8193, NULL, 0);
}

static void no_operation(uint32_t op) {
    list("no operation, one place", PK_UNKNOWN_OPERATION, op, xs, 1, ys, 1);
    list("no operation, null and null", PK_UNKNOWN_OPERATION, op, NULL, 0, NULL, 0);
    list("no operation, lists too long and unlike", PK_UNKNOWN_OPERATION, op, xs, 8193, ys, 1);
}

/* ---- the reduction: the number and the value, which is written on a refusal too */
static void reduce64(const char *what, uint32_t number, uint64_t value, uint64_t x, uint32_t e, uint64_t y) {
    uint64_t places[3] = {UNTOUCHED, UNTOUCHED, UNTOUCHED};
    expect(pk_reduce64(x, e, y, &places[1]) == number && places[1] == value, what);
    expect(places[0] == UNTOUCHED && places[2] == UNTOUCHED, what);
}

static void reduce32(const char *what, uint32_t number, uint32_t value, uint32_t x, uint32_t e, uint32_t y) {
    uint32_t places[3] = {UNTOUCHED32, UNTOUCHED32, UNTOUCHED32};
    expect(pk_reduce32(x, e, y, &places[1]) == number && places[1] == value, what);
    expect(places[0] == UNTOUCHED32 && places[2] == UNTOUCHED32, what);
}

static void reductions(void) {
    reduce64("the greatest divisor at 64", PK_DONE, 1, 1, 0, PK_DIVISOR_LIMIT64);
    reduce32("the greatest divisor at 32", PK_DONE, 1, 1, 0, PK_DIVISOR_LIMIT32);
    reduce64("a divisor past it at 64", PK_OUT_OF_RANGE, 0, 1, 0, PK_DIVISOR_LIMIT64 + 1);
    reduce32("a divisor past it at 32", PK_OUT_OF_RANGE, 0, 1, 0, PK_DIVISOR_LIMIT32 + 1);
    reduce64("the greatest shift at 64", PK_DONE, 1, 1, PK_SHIFT_LIMIT, 3);
    reduce32("the greatest shift at 32", PK_DONE, 1, 1, PK_SHIFT_LIMIT, 3);
    reduce64("a shift past it at 64", PK_SHIFT_TOO_GREAT, 0, 1, PK_SHIFT_LIMIT + 1, 3);
    reduce32("a shift past it at 32", PK_SHIFT_TOO_GREAT, 0, 1, PK_SHIFT_LIMIT + 1, 3);
    reduce64("both reasons at 64", PK_OUT_OF_RANGE, 0, 6, PK_SHIFT_LIMIT + 1, 3);
    reduce32("both reasons at 32", PK_OUT_OF_RANGE, 0, 6, PK_SHIFT_LIMIT + 1, 3);
}

/* ---- a call under an attribute: value and flags, which are written on a refusal too, and nothing beside them. The operands
   are exact, and so the answer is one under every attribute: the root of 4, 1 times 1 plus 1, and 1 times 2^1, all 2. */
#define TWO UINT64_C(0x4000000000000000)
#define TWO32 UINT32_C(0x40000000)

static uint64_t values[3];
static uint32_t values32[3], flags[3];

static double number;
static float number32;

static void spoil(void) {
    int i;
    for (i = 0; i < 3; i++) {
        values[i] = UNTOUCHED;
        values32[i] = flags[i] = UNTOUCHED32;
    }
    number = pk_number64(UNTOUCHED), number32 = pk_number32(UNTOUCHED32);
}

static int known(uint32_t attribute) { return attribute <= PK_ROUND_AWAY; }

static void gave(const char *what, uint32_t attribute, uint32_t refusal, int value_holds) {
    expect(known(attribute) ? refusal == PK_DONE : refusal == PK_UNKNOWN_ATTRIBUTE, what);
    expect(value_holds && flags[1] == PK_OK, what);
    expect(values[0] == UNTOUCHED && values[2] == UNTOUCHED, what);
    expect(values32[0] == UNTOUCHED32 && values32[2] == UNTOUCHED32, what);
    expect(flags[0] == UNTOUCHED32 && flags[2] == UNTOUCHED32, what);
    spoil();
}
static void gave64(const char *what, uint32_t attribute, uint32_t refusal) {
    gave(what, attribute, refusal, values[1] == (known(attribute) ? TWO : 0));
}
static void gave32(const char *what, uint32_t attribute, uint32_t refusal) {
    gave(what, attribute, refusal, values32[1] == (known(attribute) ? TWO32 : 0));
}
static void gave_double(const char *what, uint32_t attribute, uint32_t refusal) {
    values[1] = pk_pattern64(number);
    gave64(what, attribute, refusal);
}
static void gave_float(const char *what, uint32_t attribute, uint32_t refusal) {
    values32[1] = pk_pattern32(number32);
    gave32(what, attribute, refusal);
}

static void on_patterns(uint32_t a) {
    uint64_t one = pk_pattern64(1.0), four = pk_pattern64(4.0), *value = &values[1];
    uint32_t one32 = pk_pattern32(1.0f), four32 = pk_pattern32(4.0f), *value32 = &values32[1], *raised = &flags[1];
    gave64("sqrt at 64", a, pk_sqrt64_rounded(a, four, value, raised));
    gave32("sqrt at 32", a, pk_sqrt32_rounded(a, four32, value32, raised));
    gave64("fma at 64", a, pk_fma64_rounded(a, one, one, one, value, raised));
    gave32("fma at 32", a, pk_fma32_rounded(a, one32, one32, one32, value32, raised));
    gave64("scalbn at 64", a, pk_scalbn64_rounded(a, one, 1, value, raised));
    gave32("scalbn at 32", a, pk_scalbn32_rounded(a, one32, 1, value32, raised));
}

static void on_numbers(uint32_t a) {
    uint32_t *raised = &flags[1];
    gave_double("sqrt of a double", a, pk_sqrt_rounded(a, 4.0, &number, raised));
    gave_float("sqrt of a float", a, pk_sqrtf_rounded(a, 4.0f, &number32, raised));
    gave_double("fma of doubles", a, pk_fma_rounded(a, 1.0, 1.0, 1.0, &number, raised));
    gave_float("fma of floats", a, pk_fmaf_rounded(a, 1.0f, 1.0f, 1.0f, &number32, raised));
    gave_double("scalbn of a double", a, pk_scalbn_rounded(a, 1.0, 1, &number, raised));
    gave_float("scalbn of a float", a, pk_scalbnf_rounded(a, 1.0f, 1, &number32, raised));
}

static void attributes(void) {
    static const uint32_t all[] = {PK_ROUND_EVEN, PK_ROUND_ZERO, PK_ROUND_DOWN, PK_ROUND_UP, PK_ROUND_AWAY, 5, 6, 7, 10, 256,
                                   UINT32_C(1) << 31, (UINT32_C(1) << 31) + PK_ROUND_UP, UINT32_MAX};
    size_t i;
    spoil();
    for (i = 0; i < sizeof all / sizeof all[0]; i++) {
        on_patterns(all[i]);
        on_numbers(all[i]);
    }
}

/* ---- the reader: the number and the value, which is written on a refusal too, and nothing beside it. The text is the first
   bytes of a one that goes on past the limit, with zeros behind its point: "0x1.000...". */
#define ONE UINT64_C(0x3ff0000000000000)
#define ONE32 UINT32_C(0x3f800000)

static uint8_t text[PK_TEXT_LIMIT + 2];

static void read_by(const char *what, uint32_t wanted, uint32_t a, const uint8_t *from, size_t length) {
    uint32_t without = a == PK_ROUND_EVEN ? pk_read_hex64(from, length, &values[1]) : wanted;
    uint32_t without32 = a == PK_ROUND_EVEN ? pk_read_hex32(from, length, &values32[1]) : wanted;
    int done = wanted == PK_DONE;
    expect(without == wanted && without32 == wanted, what);
    expect(a != PK_ROUND_EVEN || (values[1] == (done ? ONE : 0) && values32[1] == (done ? ONE32 : 0)), what);
    values[1] = UNTOUCHED, values32[1] = UNTOUCHED32;
    expect(pk_read_hex64_rounded(a, from, length, &values[1]) == wanted && values[1] == (done ? ONE : 0), what);
    expect(pk_read_hex32_rounded(a, from, length, &values32[1]) == wanted && values32[1] == (done ? ONE32 : 0), what);
    expect(pk_read_hex_rounded(a, (const char *)from, length, &number) == wanted && number == (done ? 1.0 : 0.0), what);
    expect(pk_read_hexf_rounded(a, (const char *)from, length, &number32) == wanted && number32 == (done ? 1.0f : 0.0f), what);
    expect(values[0] == UNTOUCHED && values[2] == UNTOUCHED, what);
    expect(values32[0] == UNTOUCHED32 && values32[2] == UNTOUCHED32, what);
    spoil();
}

/* A one of this length, with an exponent at its end. */
static const uint8_t *one_of(size_t length) {
    memset(text, '0', sizeof text);
    memcpy(text, "0x1.", 4);
    memcpy(text + length - 2, "p0", 2);
    return text;
}

static void readers(uint32_t a) {
    uint32_t none = known(a) ? PK_NOT_A_NUMERAL : PK_UNKNOWN_ATTRIBUTE;
    read_by("64 bytes", known(a) ? PK_DONE : PK_UNKNOWN_ATTRIBUTE, a, one_of(64), 64);
    read_by("65 bytes", known(a) ? PK_TEXT_TOO_LONG : PK_UNKNOWN_ATTRIBUTE, a, one_of(65), 65);
    read_by("65 bytes outside the grammar", known(a) ? PK_TEXT_TOO_LONG : PK_UNKNOWN_ATTRIBUTE, a, one_of(64), 65);
    read_by("no exponent within the length", none, a, one_of(64), 62);
    read_by("a zero byte at the end", none, a, (const uint8_t *)"0x1p0", 6);
    read_by("a zero byte first", none, a, (const uint8_t *)"\0000x1p0", 6);
    read_by("no byte", none, a, text, 0);
    read_by("null", none, a, NULL, 0);
}

/* ---- the writer: the number and the length, which is written on a refusal too. Before the room and behind it there is one
   more byte. The largest number below zero has the longest text. */
static void wrote(const char *what, uint32_t refusal, size_t length, const char *wanted, const uint8_t *place, size_t room) {
    size_t i, end = strlen(wanted) <= room ? strlen(wanted) : 0;
    expect(refusal == (strlen(wanted) <= room ? PK_DONE : PK_ROOM_TOO_SMALL) && length == end, what);
    expect(memcmp(place + 1, wanted, end) == 0 && place[0] == '#', what);
    for (i = 1 + end; i < PK_HEX64_ROOM + 3; i++) expect(place[i] == '#', what);
}

static void writers(size_t room) {
    static const char most[] = "-0x1.fffffffffffffp+1023", most32[] = "-0x1.fffffep+127";
    uint64_t x = UINT64_C(0xffefffffffffffff);
    uint32_t x32 = UINT32_C(0xff7fffff), lengths[3] = {7, 7, 7}, refusal;
    uint8_t place[PK_HEX64_ROOM + 3];
    size_t sizes[3] = {7, 7, 7};
    memset(place, '#', sizeof place), refusal = pk_write_hex64(x, place + 1, room, &lengths[1]);
    wrote("64 bits", refusal, lengths[1], most, place, room);
    memset(place, '#', sizeof place), refusal = pk_write_hex32(x32, place + 1, room, &lengths[1]);
    wrote("32 bits", refusal, lengths[1], most32, place, room);
    memset(place, '#', sizeof place), refusal = pk_write_hex(pk_number64(x), (char *)place + 1, room, &sizes[1]);
    wrote("a double", refusal, sizes[1], most, place, room);
    memset(place, '#', sizeof place), refusal = pk_write_hexf(pk_number32(x32), (char *)place + 1, room, &sizes[1]);
    wrote("a float", refusal, sizes[1], most32, place, room);
    expect(lengths[0] == 7 && lengths[2] == 7 && sizes[0] == 7 && sizes[2] == 7, "the places beside the lengths");
}

static void numerals(void) {
    static const uint32_t all[] = {PK_ROUND_EVEN, PK_ROUND_ZERO, PK_ROUND_DOWN, PK_ROUND_UP, PK_ROUND_AWAY, 5, UINT32_MAX};
    uint32_t length = 7;
    size_t i;
    spoil();
    for (i = 0; i < sizeof all / sizeof all[0]; i++) readers(all[i]);
    for (i = 0; i <= PK_HEX64_ROOM + 1; i++) writers(i);
    expect(pk_write_hex64(0, NULL, 0, &length) == PK_ROOM_TOO_SMALL && length == 0, "null to write at 64");
    length = 7;
    expect(pk_write_hex32(0, NULL, 0, &length) == PK_ROOM_TOO_SMALL && length == 0, "null to write at 32");
}

/* ---- the numbers that the names of the header stand for */
static void numbers(void) {
    expect(PK_OK == 0 && PK_INVALID == 1 && PK_DIVBYZERO == 4, "the flags 0 to 4");
    expect(PK_OVERFLOW == 8 && PK_UNDERFLOW == 16 && PK_INEXACT == 32, "the flags 8 to 32");
    expect(PK_DONE == 0 && PK_UNKNOWN_OPERATION == 1 && PK_LIST_TOO_LONG == 2, "the refusals 0 to 2");
    expect(PK_LENGTHS_DIFFER == 3 && PK_OUT_OF_RANGE == 4 && PK_SHIFT_TOO_GREAT == 5, "the refusals 3 to 5");
    expect(PK_TEXT_TOO_LONG == 6 && PK_NOT_A_NUMERAL == 7 && PK_ROOM_TOO_SMALL == 8, "the refusals 6 to 8");
    expect(PK_UNKNOWN_ATTRIBUTE == 10, "the refusal 10");
    expect(PK_ROUND_EVEN == 0 && PK_ROUND_ZERO == 1 && PK_ROUND_DOWN == 2, "the attributes 0 to 2");
    expect(PK_ROUND_UP == 3 && PK_ROUND_AWAY == 4, "the attributes 3 and 4");
    expect(PK_LIST_SQRT == 1 && PK_LIST_FLOOR == 2 && PK_LIST_TRUNC == 3, "the operations of the list call");
    expect(PK_LIST_LIMIT == 8192 && PK_SHIFT_LIMIT == 4096, "the limits of places and of the shift");
    expect(PK_TEXT_LIMIT == 64 && PK_HEX64_ROOM == 24 && PK_HEX32_ROOM == 16, "the limit of a text, and rooms");
    expect(PK_DIVISOR_LIMIT64 == (UINT64_C(1) << 62) - 1, "the limit of the divisor at 64");
    expect(PK_DIVISOR_LIMIT32 == (UINT32_C(1) << 30) - 1, "the limit of the divisor at 32");
    expect(PK_ILOGB_ZERO == INT32_MIN && PK_ILOGB_NAN == INT32_MIN && PK_ILOGB_INFINITY == INT32_MAX, "ilogb's own numbers");
    expect(pk_ilogb64(0) == PK_ILOGB_ZERO && pk_ilogb32(0) == PK_ILOGB_ZERO, "ilogb of zero");
    expect(pk_ilogb64(PK_NAN64) == PK_ILOGB_NAN && pk_ilogb32(PK_NAN32) == PK_ILOGB_NAN, "ilogb of the canonical NaN");
    expect(pk_ilogb64(INFINITE) == PK_ILOGB_INFINITY && pk_ilogb32(UINT32_C(0xff800000)) == PK_ILOGB_INFINITY, "ilogb of infinities");
    expect(pk_fmod64(0, 0) == PK_NAN64 && PK_NAN64 == UINT64_C(0x7ff8000000000000), "the canonical NaN at 64");
    expect(pk_fmod32(0, 0) == PK_NAN32 && PK_NAN32 == UINT32_C(0x7fc00000), "the canonical NaN at 32");
}

int main(void) {
    lists(PK_LIST_SQRT);
    lists(PK_LIST_FLOOR);
    lists(PK_LIST_TRUNC);
    no_operation(0);
    no_operation(4);
    no_operation(UINT32_MAX);
    reductions();
    attributes();
    numerals();
    numbers();
    printf("%d checks at the limits, %d failed\n", checks, failures);
    return failures != 0;
}
