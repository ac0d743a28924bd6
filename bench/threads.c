/* Asks many questions about many diagrams in one process, on one thread and on several. Prints the questions a second and the quotient.
 *
 *     threads [--seconds N] [--rounds N] [--threads N] [--vertices N] [--compared N] [--seed N]
 *
 * Each thread keeps one random diagram after the other, and asks `identify` and `adjust` of 16 random pairs of each. A diagram has a
 * number, of which alone follow its edges and its pairs: thread t of n takes the numbers t, t + n, t + 2n and so on, and none waits for
 * another. First one thread and all of them answer on the same N diagrams (400, or --compared), and the answers have to be the same.
 *
 * A round is N seconds of one thread, and then N seconds of all. The clock tells what a user sees; the time of the processors tells it
 * on a machine that is busy with other work too. */
#define _POSIX_C_SOURCE 199309L

#include "random_diagrams.h"

#include <pthread.h>
#include <time.h>

enum { MOST_THREADS = 64, PAIRS = 16, ANSWER_ROOM = 1 << 18, ERROR_ROOM = 1 << 10 };

/* One pair of vertices in four is joined by an edge. */
static const density dense = {1, 4};

typedef struct {
    uint64_t seed;
    unsigned seconds, rounds, threads, vertices, compared;
} options;

/* What a thread has for itself. */
typedef struct {
    pthread_t thread;
    const options *asked;
    uint64_t number, step; /* its first diagram, and how far it is to the next */
    uint64_t end;          /* it takes no diagram of this number or a higher one */
    double until;          /* nor one after this time of the clock */
    bool compares;         /* whether it sums its answers */
    uint64_t questions, sum;
    double busy;
    drawn_diagram drawn;
    text text;
    word_line words;
    causal_diagram diagram;
    size_t names_size;
    uint8_t names[TEXT_ROOM], answer[ANSWER_ROOM], error[ERROR_ROOM];
} worker;

/* What some threads did together. */
typedef struct {
    uint64_t questions, sum;
    double elapsed, busy;
} work;

static double seconds_of(clockid_t clock) {
    struct timespec now;
    clock_gettime(clock, &now);
    return (double)now.tv_sec + (double)now.tv_nsec / 1e9;
}

/* --- what a thread does */

/* A number for an answer, by its bytes (FNV-1a). */
static uint64_t sum_of(uint8_t status, const uint8_t *bytes, size_t size) {
    uint64_t sum = 0xcbf29ce484222325 ^ status;
    for (size_t i = 0; i < size; i++) sum = (sum ^ bytes[i]) * 0x100000001b3;
    return sum;
}

/* Draws the diagram of a number and keeps it. */
static void keep(worker *w, uint64_t *source) {
    draw_diagram(&w->drawn, w->asked->vertices, dense, draw_share(source), source);
    write_diagram(&w->text, &w->drawn);
    uint8_t status = causal_keep((const uint8_t *)w->text.bytes, w->text.size, &w->diagram, w->names, TEXT_ROOM, &w->names_size);
    if (status != CAUSAL_YES) {
        fprintf(stderr, "a diagram isn't kept: status %d\n", status);
        exit(1);
    }
}

/* Asks one command of a pair. */
static void ask(worker *w, const char *command, unsigned x, unsigned y) {
    causal_sizes sizes;
    snprintf(w->words.line, LINE_ROOM, "%s g --x v%u --y v%u", command, x, y);
    split(&w->words);
    uint8_t status = causal_ask(&w->diagram, w->names, w->names_size, (const uint8_t *)w->words.line, w->words.size, w->words.spans,
                                w->words.count, NULL, 0, w->answer, ANSWER_ROOM, w->error, ERROR_ROOM, &sizes);
    if (status > CAUSAL_NO || sizes.out > ANSWER_ROOM) {
        fprintf(stderr, "status %d, %zu bytes of: %s\n", status, sizes.out, w->words.line);
        exit(1);
    }
    if (w->compares) w->sum += sum_of(status, w->answer, sizes.out);
    w->questions++;
}

/* Both commands of a random pair, x before y in the order of causes. */
static void ask_pair(worker *w, uint64_t *source) {
    unsigned later = 1 + below(source, w->drawn.vertices - 1);
    unsigned x = w->drawn.order[below(source, later)], y = w->drawn.order[later];
    ask(w, "identify", x, y);
    ask(w, "adjust", x, y);
}

static void ask_diagram(worker *w, uint64_t number) {
    uint64_t source = source_of(w->asked->seed, w->asked->vertices, number);
    keep(w, &source);
    for (int i = 0; i < PAIRS; i++) ask_pair(w, &source);
}

static void *run_worker(void *given) {
    worker *w = given;
    for (uint64_t number = w->number; number < w->end && seconds_of(CLOCK_MONOTONIC) < w->until; number += w->step) ask_diagram(w, number);
    w->busy = seconds_of(CLOCK_THREAD_CPUTIME_ID);
    return NULL;
}

/* --- threads */

/* A worker in memory of its own. */
static worker *start_worker(const options *o, unsigned number, unsigned threads, uint64_t end, double until, bool compares) {
    worker *w = calloc(1, sizeof *w);
    if (!w) exit(1);
    w->asked = o;
    w->number = number;
    w->step = threads;
    w->end = end;
    w->until = until;
    w->compares = compares;
    if (pthread_create(&w->thread, NULL, run_worker, w) != 0) {
        fputs("a thread can't be started\n", stderr);
        exit(1);
    }
    return w;
}

/* Waits for a worker, and adds what it did. */
static void end_worker(worker *w, work *all) {
    pthread_join(w->thread, NULL);
    all->questions += w->questions;
    all->sum += w->sum;
    all->busy += w->busy;
    free(w);
}

/* So many threads at once, up to a diagram or for some seconds. */
static work run_threads(const options *o, unsigned threads, uint64_t end, double seconds, bool compares) {
    worker *workers[MOST_THREADS];
    work all = {0};
    double start = seconds_of(CLOCK_MONOTONIC);
    for (unsigned t = 0; t < threads; t++) workers[t] = start_worker(o, t, threads, end, start + seconds, compares);
    for (unsigned t = 0; t < threads; t++) end_worker(workers[t], &all);
    all.elapsed = seconds_of(CLOCK_MONOTONIC) - start;
    return all;
}

/* Whether one thread and all have the same answers on the same diagrams. */
static void compare(const options *o) {
    work one = run_threads(o, 1, o->compared, 1e9, true), all = run_threads(o, o->threads, o->compared, 1e9, true);
    if (one.questions != all.questions || one.sum != all.sum) {
        fputs("the answers differ\n", stderr);
        exit(1);
    }
    printf("%" PRIu64 " answers are the same on 1 thread and on %u (sum %016" PRIx64 ").\n\n", one.questions, o->threads, one.sum);
}

static void print_work(unsigned threads, work w) {
    printf("| %u | %" PRIu64 " | %.2f | %.0f | %.2f | %.0f |", threads, w.questions, w.elapsed, (double)w.questions / w.elapsed, w.busy,
           (double)w.questions / w.busy);
}

/* One thread, and then all: by the clock, and what it were if each thread had a processor of its own all the time. */
static void run_round(const options *o) {
    work one = run_threads(o, 1, UINT64_MAX, o->seconds, false), all = run_threads(o, o->threads, UINT64_MAX, o->seconds, false);
    double by_clock = ((double)all.questions / all.elapsed) / ((double)one.questions / one.elapsed);
    double by_processors = o->threads * ((double)all.questions / all.busy) / ((double)one.questions / one.busy);
    print_work(1, one);
    printf(" | |\n");
    print_work(o->threads, all);
    printf(" %.2f | %.2f |\n", by_clock, by_processors);
    fflush(stdout);
}

/* --- words of the program's own */

static bool take_option(options *o, const char *name, const char *value) {
    unsigned long number = strtoul(value, NULL, 10);
    if (strcmp(name, "--seed") == 0) o->seed = number;
    else if (strcmp(name, "--seconds") == 0) o->seconds = (unsigned)number;
    else if (strcmp(name, "--rounds") == 0) o->rounds = (unsigned)number;
    else if (strcmp(name, "--threads") == 0) o->threads = (unsigned)number;
    else if (strcmp(name, "--compared") == 0) o->compared = (unsigned)number;
    else if (strcmp(name, "--vertices") == 0) o->vertices = (unsigned)number;
    else return false;
    return o->threads >= 1 && o->threads <= MOST_THREADS && o->vertices >= 2 && o->vertices <= MOST_VERTICES;
}

static options read_options(int count, char **given) {
    options o = {.seed = 1, .seconds = 5, .rounds = 3, .threads = 4, .vertices = 40, .compared = 400};
    for (int i = 1; i < count; i += 2) {
        if (i + 1 == count || !take_option(&o, given[i], given[i + 1])) {
            fputs("threads [--seconds N] [--rounds N] [--threads N] [--vertices N] [--compared N] [--seed N]\n", stderr);
            exit(2);
        }
    }
    return o;
}

int main(int count, char **given) {
    options o = read_options(count, given);
    compare(&o);
    printf("| threads | questions | seconds | a second | processor seconds | a processor second | quotient | with a processor each |\n");
    printf("|---|---|---|---|---|---|---|---|\n");
    for (unsigned i = 0; i < o.rounds; i++) run_round(&o);
    return 0;
}
