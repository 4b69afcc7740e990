/* Reads lines from standard input, has the back end answer each request, and writes the claims. Its one argument is the
   name that messages give to the input. */
#include <inttypes.h>
#include <stdio.h>
#include <stdlib.h>
#include <string.h>
#include <time.h>

#include "lines.h"

enum { CHUNK = 1 << 20, BETWEEN_LOOKS = 1 << 14, SECONDS = 10 };

static const char *input_name;
static uint64_t line_number;
static bool met_malformed;

static _Noreturn void stop(const char *what) {
    fprintf(stderr, "%s: error: %s\n", back_end, what);
    exit(2);
}

static char out[CHUNK];
static size_t out_length;

static void flush(void) {
    if (fwrite(out, 1, out_length, stdout) != out_length || fflush(stdout) != 0)
        stop("cannot write the answers");
    out_length = 0;
}

static void put(const char *text, size_t length) {
    memcpy(out + out_length, text, length);
    out_length += length;
}

static void put_word(enum width width, uint64_t bits) {
    for (int i = digits[width] - 1; i >= 0; i--)
        out[out_length++] = "0123456789abcdef"[bits >> (4 * i) & 15];
}

static void put_flags(unsigned flags) {
    static const struct {
        unsigned flag;
        const char *name;
    } names[] = {{INVALID, "INVALID"}, {DIVBYZERO, "DIVBYZERO"}, {OVERFLOW, "OVERFLOW"}, {UNDERFLOW, "UNDERFLOW"}, {INEXACT, "INEXACT"}};
    bool raised = false;
    for (size_t i = 0; i < sizeof names / sizeof names[0]; i++) {
        if (!(flags & names[i].flag))
            continue;
        if (raised)
            put("+", 1);
        put(names[i].name, strlen(names[i].name));
        raised = true;
    }
    if (!raised)
        put("OK", 2);
}

static void put_claim(struct text written, const struct request *request, const struct answer *answer) {
    size_t length = (size_t)(written.end - written.start);
    if (out_length + length + 128 > sizeof out)
        flush();
    put(written.start, length);
    put(" -> ", 4);
    if (request->attribute != NONE)
        put("0 ", 2);
    put_word(request->width, answer->bits);
    put(" ", 1);
    put_flags(answer->flags);
    put("\n", 1);
}

static enum outcome ask(const struct request *request, struct answer *answer) {
    if (request->attribute == OTHER)
        return NO_ATTRIBUTE;
    return request->operation == SCALBN ? scale(request, answer) : work_out(request, answer);
}

static void take_line(struct text line) {
    struct request request = {0};
    struct answer answer;
    char error[200];
    line_number++;
    if (line.start == line.end || *line.start == '#')
        return;
    if (!read_request(&line, &request, error, sizeof error)) {
        met_malformed = true;
        fprintf(stderr, "%s:%" PRIu64 ": error: %s\n", input_name, line_number, error);
        return;
    }
    enum outcome outcome = ask(&request, &answer);
    if (outcome == ANSWERED)
        put_claim(line, &request, &answer);
    count(&request, outcome);
}

static void tell_progress(void) {
    static time_t last;
    time_t now = time(NULL);
    if (last == 0)
        last = now;
    if (now - last < SECONDS)
        return;
    last = now;
    fprintf(stderr, "%s: %" PRIu64 " lines so far\n", back_end, line_number);
}

/* Takes all whole lines of the buffer; gives back how many bytes they had. */
static size_t take_lines(const char *start, size_t length) {
    const char *at = start, *end = start + length, *feed;
    while ((feed = memchr(at, '\n', (size_t)(end - at))) != NULL) {
        take_line((struct text){at, feed});
        at = feed + 1;
        if (line_number % BETWEEN_LOOKS == 0)
            tell_progress();
    }
    return (size_t)(at - start);
}

static void take_input(void) {
    size_t room = CHUNK, held = 0, got;
    char *buffer = malloc(room);
    while (buffer && (got = fread(buffer + held, 1, room - held, stdin)) > 0) {
        held += got;
        size_t taken = take_lines(buffer, held);
        held -= taken;
        memmove(buffer, buffer + taken, held);
        /* A line that is longer than the buffer gets a longer one. */
        if (held == room)
            buffer = realloc(buffer, room *= 2);
    }
    if (!buffer)
        stop("no memory for a line of such length");
    if (ferror(stdin))
        stop("cannot read the lines");
    if (held > 0)
        take_line((struct text){buffer, buffer + held});
    free(buffer);
}

int main(int argc, char **argv) {
    input_name = argc > 1 ? argv[1] : "-";
    prepare();
    tell_progress();
    take_input();
    flush();
    tell_counts();
    return met_malformed ? 1 : 0;
}
