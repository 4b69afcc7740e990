/* What a request, its answer and a back end are: shared by all files of tools/outside.d. */
#ifndef LINES_H
#define LINES_H

#include <stdbool.h>
#include <stddef.h>
#include <stdint.h>

enum operation { SQRT, FMA, SCALBN, FLOOR, TRUNC, CEIL, OPERATIONS };
enum width { W64, W32, W16, WIDTHS };
/* RISC-V's numbers and SoftFloat's. OTHER is any number above them; a name without an attribute rounds to nearest even, and
   floor, trunc and ceil have none. */
enum attribute { EVEN, ZERO, DOWN, UP, AWAY, OTHER, NONE, ATTRIBUTES };
enum { INVALID = 1, DIVBYZERO = 4, OVERFLOW = 8, UNDERFLOW = 16, INEXACT = 32 };

/* The operand of scalbn that is no pattern is n. */
struct request {
    enum operation operation;
    enum width width;
    enum attribute attribute;
    uint64_t operand[3];
    int32_t n;
};

struct answer {
    uint64_t bits;
    unsigned flags;
};

/* What becomes of a request: tally.c has the words for each reason to leave it out. */
enum outcome { ANSWERED, NO_ATTRIBUTE, NO_WIDTH, NOT_FINITE, TOO_LARGE, TININESS, PRODUCT, OUTCOMES };

/* What each back end defines. Of scalbn it is asked for products: operand 0 times operand 1. */
extern const char *const back_end;
void prepare(void);
enum outcome work_out(const struct request *request, struct answer *answer);

/* scaling.c: scalbn, by the back end's products. */
enum outcome scale(const struct request *request, struct answer *answer);

/* format.c: what is asked about bit patterns. */
extern const int digits[WIDTHS];
uint64_t infinity(enum width width);
uint64_t magnitude(enum width width, uint64_t bits);
bool is_nan(enum width width, uint64_t bits);
uint64_t canonical(enum width width, uint64_t bits);
uint64_t power_of_two(enum width width, int32_t n);
uint64_t least_normal(enum width width);
int32_t nearer_power(enum width width, uint64_t bits, int32_t n);
int32_t exact_step(enum width width, int32_t n);
enum outcome fits_an_integer(enum width width, uint64_t bits);

/* request.c: the request of a line, which is cut to it. Else false, and the error says what was found and what was expected. */
struct text {
    const char *start;
    const char *end;
};
bool read_request(struct text *line, struct request *request, char *error, size_t room);

/* tally.c */
void count(const struct request *request, enum outcome outcome);
void tell_counts(void);
const char *operation_name(enum operation operation);
const char *attribute_name(enum attribute attribute);
enum attribute rounding_of(const struct request *request);
bool is_integral(enum operation operation);

#endif
