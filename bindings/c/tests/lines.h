/* Holds functions to the claims on standard input, which are lines as docs/LINES.md has them, on patterns and on numbers, under
   each of the four rounding modes: the same answer, bit for bit, with no floating-point flag of the processor raised and the
   mode as it was. Every operation must have a line, and every one that rounds a line under each attribute and one that is
   refused. answers.c and numerals.c share it; each has operations of its own. */
#include <fenv.h>
#include <inttypes.h>
#include <stdio.h>
#include <stdlib.h>
#include <string.h>

#include "paskerotim.h"

/* The longest line has three lists, each one place past the limit. */
#define PLACES (PK_LIST_LIMIT + 1)
#define LONGEST (3 * 17 * PLACES + 100)
#define FIELDS 5
#define MOST_OPERATIONS 32

/* What may stand behind a name: an attribute, by its number, nothing, or the number of no attribute. */
#define ATTRIBUTES (PK_ROUND_AWAY + 1)
#define NOTHING ATTRIBUTES
#define REFUSED (NOTHING + 1)
#define ENDINGS (REFUSED + 1)
static const char *const endings[ENDINGS] = {".even", ".zero", ".down", ".up", ".away", "", ".NUMBER"};

/* The operations of a program: their names, of which the first `rounded` take an attribute; what sets all that a call may
   write to what none writes; and what answers a request, into `said`. */
struct operations {
    const char *const *names;
    size_t count, rounded;
    void (*spoil)(void);
    void (*on_patterns)(void);
    void (*on_numbers)(void);
};

static char line[LONGEST], request[LONGEST], said[LONGEST];

/* What a call wrote: a value, as a pattern or as a number. */
static uint64_t value64;
static uint32_t value32;
static double number64;
static float number32;

static void refusal64(uint32_t refusal) { sprintf(said, "%" PRIu32 " %016" PRIx64, refusal, value64); }
static void refusal32(uint32_t refusal) { sprintf(said, "%" PRIu32 " %08" PRIx32, refusal, value32); }

/* ---- a request, by its fields */
static char *field[FIELDS];
static int fields;
/* The number of the attribute that stood behind the name, and which ending that was. */
static uint32_t attribute;
static size_t ending;

static int named(const char *name, int operands) { return strcmp(field[0], name) == 0 && fields == operands + 1; }
static int is(const char *name, int operands) { return ending == NOTHING && named(name, operands); }
static int under(const char *name, int operands) { return ending != NOTHING && named(name, operands); }

/* Operand i as a word, and as the number of that pattern. */
static uint64_t W(int i) { return i < fields ? strtoull(field[i], NULL, 16) : 0; }
static uint32_t w(int i) { return (uint32_t)W(i); }
static double D(int i) { return pk_number64(W(i)); }
static float d(int i) { return pk_number32(w(i)); }
/* Operand i as a decimal number without a sign. */
static uint32_t u(int i) { return i < fields ? (uint32_t)strtoul(field[i], NULL, 10) : 0; }

/* The patterns of what numbers give. */
static uint64_t P(double x) { return pk_pattern64(x); }
static uint32_t p(float x) { return pk_pattern32(x); }

/* Fields are one blank apart; the last of them is all that is left. */
static void split(char *text, int most) {
    for (fields = 0; text != NULL && fields < most; fields++) {
        field[fields] = text;
        text = fields + 1 < most ? strchr(text, ' ') : NULL;
        if (text != NULL) *text++ = '\0';
    }
}

/* Takes an attribute, by its name or its number, off the operation's name. What is neither stays: nothing has that name. */
static void take_attribute(void) {
    char *dot = strchr(field[0], '.'), *rest;
    ending = NOTHING;
    if (dot == NULL) return;
    for (attribute = 0; attribute < ATTRIBUTES && strcmp(dot, endings[attribute]) != 0;) attribute++;
    if (attribute == ATTRIBUTES) {
        attribute = (uint32_t)strtoul(dot + 1, &rest, 10);
        if (rest == dot + 1 || *rest != '\0') return;
    }
    ending = attribute < ATTRIBUTES ? attribute : (size_t)REFUSED;
    *dot = '\0';
}

/* ---- a claim, under one rounding mode and under all */
static int holds(const struct operations *all, void (*answer)(void), const char *wanted, int mode) {
    value64 = UINT64_MAX, value32 = UINT32_MAX;
    number64 = pk_number64(value64), number32 = pk_number32(value32);
    all->spoil();
    if (fesetround(mode) != 0) return 0;
    feclearexcept(FE_ALL_EXCEPT);
    answer();
    if (fetestexcept(FE_ALL_EXCEPT) != 0) strcat(said, ", with a floating-point flag");
    if (fegetround() != mode) strcat(said, ", in another rounding mode");
    fesetround(FE_TONEAREST);
    return strcmp(said, wanted) == 0;
}

static long count[MOST_OPERATIONS][ENDINGS];

/* Whether a line is a claim that holds under every mode; if not it says so. */
static int claimed(const struct operations *all) {
    static const int modes[] = {FE_TONEAREST, FE_UPWARD, FE_DOWNWARD, FE_TOWARDZERO};
    char *arrow = strstr(line, " -> ");
    size_t i;
    if (arrow == NULL) {
        printf("no claim: %.200s\n", line);
        return 0;
    }
    memcpy(request, line, (size_t)(arrow - line));
    request[arrow - line] = '\0';
    /* a text may have blanks */
    split(request, strncmp(request, "read", 4) == 0 ? 2 : FIELDS);
    take_attribute();
    for (i = 0; i < all->count; i++) count[i][ending] += strcmp(field[0], all->names[i]) == 0;
    for (i = 0; i < sizeof modes / sizeof modes[0]; i++) {
        strcpy(said, "no request");
        /* where numbers have no function, what patterns gave stands */
        if (holds(all, all->on_patterns, arrow + 4, modes[i]) && holds(all, all->on_numbers, arrow + 4, modes[i])) continue;
        printf("%.200s; C gives %.200s\n", line, said);
        return 0;
    }
    return 1;
}

/* How many of the lines that there must be are not there. */
static long lacking(const struct operations *all) {
    long lacks = 0;
    size_t i, j;
    for (i = 0; i < all->count; i++) {
        for (j = 0; j < ENDINGS; j++) {
            if (count[i][j] > 0 || (i >= all->rounded && j != NOTHING)) continue;
            printf("no line for: %s%s\n", all->names[i], endings[j]);
            lacks++;
        }
    }
    return lacks;
}

/* Exit status: 0 all is as it must be, 1 something is not. */
static int hold_lines(const struct operations *all) {
    long lines = 0, differences = 0;
    while (fgets(line, sizeof line, stdin) != NULL) {
        line[strcspn(line, "\n")] = '\0';
        if (line[0] == '#' || line[0] == '\0') continue;
        lines++;
        differences += !claimed(all);
    }
    differences += lacking(all);
    printf("%ld lines under 4 rounding modes, on patterns and on numbers, %ld differences\n", lines, differences);
    return differences != 0;
}
