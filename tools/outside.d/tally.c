/* How many lines were answered and how many were left out, by operation and by reason. */
#include <inttypes.h>
#include <stdio.h>

#include "lines.h"

static uint64_t counts[OPERATIONS][WIDTHS][ATTRIBUTES][OUTCOMES];

static const char *const reasons[OUTCOMES] = {
    [NO_ATTRIBUTE] = "no such attribute here",
    [NO_WIDTH] = "no such width here",
    [NOT_FINITE] = "not finite",
    [TOO_LARGE] = "magnitude from 2^62 on",
    [TININESS] = "tininess judged before rounding",
    [PRODUCT] = "0 times infinity plus a quiet NaN raises nothing here",
};

const char *operation_name(enum operation operation) {
    static const char *const names[OPERATIONS] = {"sqrt", "fma", "scalbn", "floor", "trunc", "ceil"};
    return names[operation];
}

const char *attribute_name(enum attribute attribute) {
    static const char *const names[ATTRIBUTES] = {"even", "zero", "down", "up", "away", "NUMBER", ""};
    return names[attribute];
}

/* Whether it sends a number to an integer, in a direction of its own. */
bool is_integral(enum operation operation) {
    return operation == FLOOR || operation == TRUNC || operation == CEIL;
}

/* The attribute to compute under, of a request that names one or none. */
enum attribute rounding_of(const struct request *request) {
    return request->attribute == NONE ? EVEN : request->attribute;
}

void count(const struct request *request, enum outcome outcome) {
    counts[request->operation][request->width][request->attribute][outcome]++;
}

static void tell(enum operation operation, enum width width, enum attribute attribute) {
    const uint64_t *of = counts[operation][width][attribute];
    uint64_t left_out = 0;
    for (int i = ANSWERED + 1; i < OUTCOMES; i++)
        left_out += of[i];
    if (of[ANSWERED] + left_out == 0)
        return;
    fprintf(stderr, "%s: %s%d%s%s: %" PRIu64 " answered, %" PRIu64 " left out", back_end, operation_name(operation),
            4 * digits[width], attribute == NONE ? "" : ".", attribute_name(attribute), of[ANSWERED], left_out);
    const char *before = ": ";
    for (int i = ANSWERED + 1; i < OUTCOMES; i++) {
        if (of[i] == 0)
            continue;
        fprintf(stderr, "%s%" PRIu64 " %s", before, of[i], reasons[i]);
        before = ", ";
    }
    fputc('\n', stderr);
}

void tell_counts(void) {
    for (int operation = 0; operation < OPERATIONS; operation++)
        for (int width = 0; width < WIDTHS; width++)
            for (int attribute = 0; attribute < ATTRIBUTES; attribute++)
                tell(operation, width, attribute);
}
