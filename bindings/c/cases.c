/* cases FLAT: runs the cases of a file that flatten.py wrote, and prints what each gave. */
#include <stdio.h>
#include <stdlib.h>
#include <string.h>

#include "causal.h"

enum { MOST = 64 };

static const uint8_t *bytes;
static size_t length, at;

static void stop(const char *why) {
    fprintf(stderr, "cases: %s\n", why);
    exit(1);
}

static void *room_for(size_t size) {
    void *room = malloc(size ? size : 1);
    if (!room) stop("no memory");
    return room;
}

static void read_whole(const char *name) {
    FILE *file = fopen(name, "rb");
    if (!file || fseek(file, 0, SEEK_END)) stop("the file can't be read");
    long size = ftell(file);
    if (size < 0 || fseek(file, 0, SEEK_SET)) stop("the file can't be read");
    uint8_t *whole = room_for((size_t)size);
    length = fread(whole, 1, (size_t)size, file);
    bytes = whole;
    fclose(file);
}

/* The next piece: its length, a colon, its bytes. */
static causal_span piece(void) {
    size_t size = 0;
    while (at < length && bytes[at] >= '0' && bytes[at] <= '9') size = size * 10 + (bytes[at++] - '0');
    if (at >= length || bytes[at] != ':' || size > length - at - 1) stop("a piece was expected");
    causal_span span = {at + 1, at + 1 + size};
    at = span.end;
    return span;
}

static size_t number(void) {
    size_t value = 0;
    causal_span span = piece();
    for (size_t i = span.start; i < span.end; i++) value = value * 10 + (bytes[i] - '0');
    return value;
}

static void print_span(causal_span span) { fwrite(bytes + span.start, 1, span.end - span.start, stdout); }

/* Runs a case in rooms of these sizes, and says whether they were large enough. */
static int run(causal_span name, const causal_span *words, size_t word_count, const causal_input *inputs, size_t input_count,
               causal_sizes *rooms) {
    uint8_t *out = room_for(rooms->out), *err = room_for(rooms->err);
    causal_sizes sizes;
    uint8_t status = causal_run(bytes, length, words, word_count, inputs, input_count, out, rooms->out, err, rooms->err, &sizes);
    int whole = sizes.out <= rooms->out && sizes.err <= rooms->err;
    if (whole) {
        fputs("== ", stdout);
        print_span(name);
        printf(": %d\n", status);
        fwrite(out, 1, sizes.out, stdout);
        if (sizes.err > 0) fputs("-- err\n", stdout);
        fwrite(err, 1, sizes.err, stdout);
    }
    free(out);
    free(err);
    *rooms = sizes;
    return whole;
}

static void run_case(void) {
    causal_span name = piece(), words[MOST];
    causal_input inputs[MOST];
    size_t word_count = number();
    if (word_count > MOST) stop("too many words");
    for (size_t i = 0; i < word_count; i++) words[i] = piece();
    size_t input_count = number();
    if (input_count > MOST) stop("too many inputs");
    for (size_t i = 0; i < input_count; i++) {
        inputs[i].name = piece();
        inputs[i].content = piece();
    }
    causal_sizes rooms = {16, 16};
    if (!run(name, words, word_count, inputs, input_count, &rooms) && !run(name, words, word_count, inputs, input_count, &rooms))
        stop("the sizes that were given were too small");
}

int main(int count, char **arguments) {
    if (count != 2) stop("name a file");
    read_whole(arguments[1]);
    for (size_t left = number(); left > 0; left--) run_case();
    return 0;
}
