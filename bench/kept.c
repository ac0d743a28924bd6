/* Times questions about a diagram that is kept: `causal_keep` once, then `causal_ask` many times. Prints the least time of a question
 * and the median.
 *
 *     kept [--calls N] [--x NAME] [--y NAME] < FILE
 *
 * FILE is a graph text. `adjust` and `identify` are each asked N times (2,000), of x (v20) and y (v60). A call's time is that of the
 * process's processor. Before the clock runs, each answer is compared with that of `causal_run` on the text. */
#define _POSIX_C_SOURCE 199309L

#include "random_diagrams.h"

#include <time.h>

enum { MOST_CALLS = 1000000, ANSWER_ROOM = 1 << 18, ERROR_ROOM = 1 << 10 };

typedef struct {
    unsigned calls;
    const char *x, *y;
} options;

/* A diagram that is kept, with its names and its text. */
typedef struct {
    causal_diagram diagram;
    size_t names_size;
    uint8_t names[TEXT_ROOM];
    text source;
} kept_diagram;

/* An answer. */
typedef struct {
    uint8_t status, out[ANSWER_ROOM], err[ERROR_ROOM];
    causal_sizes sizes;
} answer;

static kept_diagram kept;
static answer asked, run;
static double times[MOST_CALLS];

static void stop(const char *why) {
    fprintf(stderr, "kept: %s\n", why);
    exit(1);
}

static double microseconds(void) {
    struct timespec now;
    clock_gettime(CLOCK_PROCESS_CPUTIME_ID, &now);
    return (double)now.tv_sec * 1e6 + (double)now.tv_nsec / 1e3;
}

/* Reads the text, and keeps its diagram. */
static void keep(FILE *file) {
    text *t = &kept.source;
    t->size = fread(t->bytes, 1, sizeof t->bytes, file);
    if (t->size == sizeof t->bytes) stop("the text has more bytes than its room");
    if (causal_keep((const uint8_t *)t->bytes, t->size, &kept.diagram, kept.names, sizeof kept.names, &kept.names_size) != CAUSAL_YES)
        stop("the text isn't kept");
}

static void ask(const word_line *w) {
    asked.status = causal_ask(&kept.diagram, kept.names, kept.names_size, (const uint8_t *)w->line, w->size, w->spans, w->count, NULL, 0,
                              asked.out, ANSWER_ROOM, asked.err, ERROR_ROOM, &asked.sizes);
}

/* The same of the text. The words stand first, and the second of them names it. */
static void run_on_text(const word_line *w) {
    static uint8_t bytes[LINE_ROOM + TEXT_ROOM];
    causal_input input = {w->spans[1], {w->size, w->size + kept.source.size}};
    memcpy(bytes, w->line, w->size);
    memcpy(bytes + w->size, kept.source.bytes, kept.source.size);
    run.status = causal_run(bytes, input.content.end, w->spans, w->count, &input, 1, run.out, ANSWER_ROOM, run.err, ERROR_ROOM, &run.sizes);
}

/* Compares the answer with that on the text. */
static void compare(const word_line *w) {
    ask(w);
    run_on_text(w);
    if (asked.status != run.status || asked.sizes.out != run.sizes.out || memcmp(asked.out, run.out, run.sizes.out) != 0)
        stop("the answers differ");
    if (asked.status > CAUSAL_NO || asked.sizes.out > ANSWER_ROOM) stop("the question isn't answered");
}

static int by_size(const void *a, const void *b) {
    double first = *(const double *)a, second = *(const double *)b;
    return (first > second) - (first < second);
}

/* Asks a command again and again, and prints what a question takes. */
static void time_command(const char *command, const options *o) {
    word_line w;
    int size = snprintf(w.line, LINE_ROOM, "%s g --x %s --y %s", command, o->x, o->y);
    if (size >= LINE_ROOM) stop("the names have more bytes than their room");
    split(&w);
    compare(&w);
    for (unsigned i = 0; i < o->calls; i++) {
        double start = microseconds();
        ask(&w);
        times[i] = microseconds() - start;
    }
    qsort(times, o->calls, sizeof *times, by_size);
    printf("| `%s` | %.1f | %.1f |\n", command, times[0], times[o->calls / 2]);
}

static bool take_option(options *o, const char *name, const char *value) {
    if (strcmp(name, "--calls") == 0) o->calls = (unsigned)strtoul(value, NULL, 10);
    else if (strcmp(name, "--x") == 0) o->x = value;
    else if (strcmp(name, "--y") == 0) o->y = value;
    else return false;
    return o->calls >= 1 && o->calls <= MOST_CALLS;
}

static options read_options(int count, char **given) {
    options o = {.calls = 2000, .x = "v20", .y = "v60"};
    for (int i = 1; i < count; i += 2) {
        if (i + 1 == count || !take_option(&o, given[i], given[i + 1])) {
            fputs("kept [--calls N] [--x NAME] [--y NAME] < FILE\n", stderr);
            exit(2);
        }
    }
    return o;
}

int main(int count, char **given) {
    options o = read_options(count, given);
    keep(stdin);
    printf("| a question, %u calls, microseconds | least | median |\n|---|---|---|\n", o.calls);
    time_command("adjust", &o);
    time_command("identify", &o);
    return 0;
}
