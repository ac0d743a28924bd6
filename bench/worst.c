/* Times the commands on random diagrams: 8 to 64 vertices, sparse and dense. Prints the median and the worst of each.
 *
 *     worst [--seed N] [--diagrams N] [--members N] [--vertices N] [--chance N] [--both N] [--only COMMAND] [--keep FILE]
 *
 * --members N   x and y have 1 to N members each (one is the default)
 * --vertices N  diagrams of that many vertices alone: 8, 16, 32 or 64
 * --chance N    of 100 pairs of vertices N are joined, in place of the two densities
 * --both N      of 20 edges N are bidirected (else 1, 2, 4 or 8, drawn for each diagram)
 * --only C      that command alone: separate, identify, adjust, adjust-many, implications or equivalent
 * --keep FILE   writes the diagram of the call that took longest, with its words in a statement that readers drop;
 *               a second diagram goes to FILE.second
 *
 * A call's time is that of its thread's processor, the least of three calls. Its heap is counted (counted_heap.c), which adds a few
 * instructions to each call of malloc. */
#define _POSIX_C_SOURCE 199309L

#include "counted_heap.h"
#include "random_diagrams.h"

#include <time.h>

/* --- the questions */

enum { SEPARATE, IDENTIFY, ADJUST, ADJUST_MANY, IMPLICATIONS, EQUIVALENT, COMMANDS };

static const char *const command_names[COMMANDS] = {"separate", "identify", "adjust", "adjust-many", "implications", "equivalent"};
static const char *const command_beginnings[COMMANDS] = {
    "separate g", "identify g", "adjust g", "adjust g --most 10000", "implications g", "equivalent g h"};

/* Two lists of vertices and a third: members of x stand before those of y in the order of causes. */
typedef struct {
    bool x[MOST_VERTICES], y[MOST_VERTICES], given[MOST_VERTICES];
} asked_sets;

/* Marks up to `most` of the vertices at the places from `start` up to `end` of the order. */
static void mark_some(bool *set, const drawn_diagram *d, unsigned start, unsigned end, unsigned most, uint64_t *source) {
    unsigned count = 1 + below(source, most);
    for (unsigned i = 0; i < count; i++) set[d->order[start + below(source, end - start)]] = true;
}

/* x from before a random place of the order, y from behind it, and each other vertex given with the chance of one in four. */
static asked_sets draw_sets(const drawn_diagram *d, unsigned members, uint64_t *source) {
    asked_sets sets = {0};
    unsigned middle = 1 + below(source, d->vertices - 1);
    mark_some(sets.x, d, 0, middle, members, source);
    mark_some(sets.y, d, middle, d->vertices, members, source);
    for (unsigned v = 0; v < d->vertices; v++) sets.given[v] = !sets.x[v] && !sets.y[v] && below(source, 4) == 0;
    return sets;
}

/* Adds an option with its list to a line; {} for a list without a member. */
static void add_list(word_line *w, const char *option, const bool *set, unsigned vertices) {
    size_t size = strlen(w->line);
    const char *between = "";
    size += (size_t)snprintf(w->line + size, LINE_ROOM - size, " %s ", option);
    size_t empty = size;
    for (unsigned v = 0; v < vertices; v++) {
        if (!set[v]) continue;
        size += (size_t)snprintf(w->line + size, LINE_ROOM - size, "%sv%u", between, v);
        between = ",";
    }
    if (size == empty) snprintf(w->line + size, LINE_ROOM - size, "{}");
}

/* The words of a command. */
static void write_words(word_line *w, int command, const asked_sets *sets, unsigned vertices) {
    snprintf(w->line, LINE_ROOM, "%s", command_beginnings[command]);
    if (command <= ADJUST_MANY) {
        add_list(w, "--x", sets->x, vertices);
        add_list(w, "--y", sets->y, vertices);
    }
    if (command == SEPARATE) add_list(w, "--given", sets->given, vertices);
    split(w);
}

/* The diagram without its bidirected edges. */
static void keep_arrows(drawn_diagram *to, const drawn_diagram *from) {
    *to = *from;
    to->edge_count = 0;
    for (unsigned i = 0; i < from->edge_count; i++) {
        if (!from->edges[i].both) to->edges[to->edge_count++] = from->edges[i];
    }
}

/* The children of each vertex, one edge left out. */
static void children_without(uint64_t *children, const drawn_diagram *d, unsigned left_out) {
    memset(children, 0, MOST_VERTICES * sizeof *children);
    for (unsigned i = 0; i < d->edge_count; i++) {
        if (i != left_out) children[d->edges[i].from] |= (uint64_t)1 << d->edges[i].to;
    }
}

/* Whether a directed path leads from the start to the end of an edge without it: then it can't be turned. */
static bool has_detour(const drawn_diagram *d, unsigned edge) {
    uint64_t children[MOST_VERTICES], found = (uint64_t)1 << d->edges[edge].from;
    children_without(children, d, edge);
    for (unsigned i = 0; i < d->vertices; i++) {
        if (found >> d->order[i] & 1) found |= children[d->order[i]];
    }
    return found >> d->edges[edge].to & 1;
}

/* Turns a random arrow where that makes no cycle and the toss of a coin says so, and drops it elsewhere. */
static void change_one_arrow(drawn_diagram *d, uint64_t *source) {
    if (d->edge_count == 0) return;
    unsigned edge = below(source, d->edge_count);
    drawn_edge was = d->edges[edge];
    if (below(source, 2) == 0 && !has_detour(d, edge)) {
        d->edges[edge] = (drawn_edge){was.to, was.from, false};
    } else {
        d->edges[edge] = d->edges[--d->edge_count];
    }
}

/* --- one call */

enum { ANSWER_ROOM = 1 << 21, ERROR_ROOM = 1 << 12, ROUNDS = 3 };

/* A question about one diagram or two: what the spans of a call are parts of, and the call's inputs. */
typedef struct {
    word_line words;
    size_t length, input_count;
    char bytes[LINE_ROOM + 2 * TEXT_ROOM];
    causal_input inputs[2];
} question;

/* What a call took, how much it wrote, and whether it answered yes. */
typedef struct {
    double ms;
    size_t heap, answer;
    bool yes;
} taken;

static uint8_t answer_room[ANSWER_ROOM], error_room[ERROR_ROOM];

/* The words stand first, and each text behind what is there; the inputs are named by the second word and the third. */
static void add_input(question *q, const text *t) {
    causal_span content = {q->length, q->length + t->size};
    memcpy(q->bytes + q->length, t->bytes, t->size);
    q->length = content.end;
    q->inputs[q->input_count] = (causal_input){q->words.spans[1 + q->input_count], content};
    q->input_count++;
}

static void begin_question(question *q) {
    memcpy(q->bytes, q->words.line, q->words.size);
    q->length = q->words.size;
    q->input_count = 0;
}

static double thread_ms(void) {
    struct timespec now;
    clock_gettime(CLOCK_THREAD_CPUTIME_ID, &now);
    return (double)now.tv_sec * 1e3 + (double)now.tv_nsec / 1e6;
}

/* Asks once. A status other than yes or no ends the program: each question here can be asked. */
static taken ask(const question *q) {
    causal_sizes sizes;
    begin_counting_heap();
    double start = thread_ms();
    uint8_t status = causal_run((const uint8_t *)q->bytes, q->length, q->words.spans, q->words.count, q->inputs, q->input_count,
                                answer_room, ANSWER_ROOM, error_room, ERROR_ROOM, &sizes);
    double end = thread_ms();
    if (status > CAUSAL_NO) {
        fprintf(stderr, "status %d of: %s\n%.*s", status, q->words.line, (int)sizes.err, (const char *)error_room);
        exit(1);
    }
    return (taken){end - start, most_heap(), sizes.out, status == CAUSAL_YES};
}

/* Asks a few times: the machine may be busy, so the least time is the one that tells. */
static taken ask_rounds(const question *q) {
    taken least = ask(q);
    for (int i = 1; i < ROUNDS; i++) {
        taken again = ask(q);
        if (again.ms < least.ms) least = again;
    }
    return least;
}

/* --- tables */

/* One row: the diagrams of one size and one density. */
typedef struct {
    const char *kind;
    unsigned vertices;
    density dense;
} row;

/* Of one command in one row. */
typedef struct {
    double *ms;
    double worst;
    size_t heap, answer;
    unsigned yes;
} column;

typedef struct {
    uint64_t seed;
    unsigned diagrams, members, vertices, chance;
    int only, both;
    const char *keep;
} options;

/* The call that took longest. */
static struct {
    double ms;
    question asked;
} longest;

static const row rows[] = {
    {"sparse", 8, {3, 7}},  {"sparse", 16, {3, 15}}, {"sparse", 32, {3, 31}}, {"sparse", 64, {3, 63}},
    {"dense", 8, {1, 2}},   {"dense", 16, {1, 2}},   {"dense", 32, {1, 2}},   {"dense", 64, {1, 2}},
};

enum { ROWS = sizeof rows / sizeof *rows };

static column columns[ROWS][COMMANDS];
static double edges_of_row[ROWS];

/* Makes the question of a command on a diagram; `source` draws the arrow that the second diagram of `equivalent` lacks or turns. */
static void make_question(question *q, int command, const drawn_diagram *d, const asked_sets *sets, uint64_t *source) {
    static drawn_diagram arrows;
    static text t;
    write_words(&q->words, command, sets, d->vertices);
    begin_question(q);
    if (command != EQUIVALENT) {
        write_diagram(&t, d);
        add_input(q, &t);
        return;
    }
    keep_arrows(&arrows, d);
    write_diagram(&t, &arrows);
    add_input(q, &t);
    change_one_arrow(&arrows, source);
    write_diagram(&t, &arrows);
    add_input(q, &t);
}

static void note(column *c, unsigned diagram, taken it, const question *q) {
    c->ms[diagram] = it.ms;
    if (it.ms > c->worst) c->worst = it.ms;
    if (it.heap > c->heap) c->heap = it.heap;
    if (it.answer > c->answer) c->answer = it.answer;
    c->yes += it.yes;
    if (it.ms > longest.ms) {
        longest.ms = it.ms;
        longest.asked = *q;
    }
}

/* All commands on one diagram. */
static void ask_commands(const options *o, unsigned at_row, unsigned diagram) {
    static drawn_diagram d;
    static question q;
    uint64_t source = source_of(o->seed, at_row, diagram);
    density dense = o->chance ? (density){o->chance, 100} : rows[at_row].dense;
    unsigned share = draw_share(&source);
    draw_diagram(&d, rows[at_row].vertices, dense, o->both < 0 ? share : (unsigned)o->both, &source);
    asked_sets sets = draw_sets(&d, o->members, &source);
    edges_of_row[at_row] += d.edge_count;
    for (int command = 0; command < COMMANDS; command++) {
        if (o->only < COMMANDS && o->only != command) continue;
        make_question(&q, command, &d, &sets, &source);
        note(&columns[at_row][command], diagram, ask_rounds(&q), &q);
    }
}

static void make_columns(unsigned at_row, unsigned diagrams) {
    for (int command = 0; command < COMMANDS; command++) {
        columns[at_row][command].ms = calloc(diagrams, sizeof(double));
        if (!columns[at_row][command].ms) exit(1);
    }
}

static int compare_ms(const void *a, const void *b) {
    double left = *(const double *)a, right = *(const double *)b;
    return (left > right) - (left < right);
}

static void sort_columns(unsigned at_row, unsigned diagrams) {
    for (int command = 0; command < COMMANDS; command++) {
        qsort(columns[at_row][command].ms, diagrams, sizeof(double), compare_ms);
    }
}

/* Whether a row is measured: with a chance of one's own one row of each size is. */
static bool is_asked(const options *o, unsigned at_row) {
    return (o->vertices == 0 || o->vertices == rows[at_row].vertices) && (o->chance == 0 || at_row < ROWS / 2);
}

static void print_density(const options *o, unsigned at_row) {
    if (o->chance == 0) printf("| %s", rows[at_row].kind);
    else printf("| %u in 100", o->chance);
}

static void measure_row(const options *o, unsigned at_row) {
    make_columns(at_row, o->diagrams);
    for (unsigned diagram = 0; diagram < o->diagrams; diagram++) ask_commands(o, at_row, diagram);
    sort_columns(at_row, o->diagrams);
    fprintf(stderr, "%s, %u vertices: done\n", rows[at_row].kind, rows[at_row].vertices);
}

static void print_times(const column *c, unsigned diagrams) {
    printf(" %.3f, %.3f |", c->ms[diagrams / 2], c->worst);
}

static void print_sizes(const column *c, unsigned diagrams) {
    printf(" %.1f, %.1f, %.0f |", (double)c->heap / 1024, (double)c->answer / 1024, 100.0 * c->yes / diagrams);
}

static void print_row(const options *o, unsigned at_row, void (*print)(const column *, unsigned)) {
    print_density(o, at_row);
    printf(", %u, %.0f |", rows[at_row].vertices, edges_of_row[at_row] / o->diagrams);
    for (int command = 0; command < COMMANDS; command++) {
        if (o->only == COMMANDS || o->only == command) print(&columns[at_row][command], o->diagrams);
    }
    printf("\n");
}

static void print_heads(const options *o) {
    for (int command = 0; command < COMMANDS; command++) {
        if (o->only == COMMANDS || o->only == command) printf(" `%s` |", command_names[command]);
    }
    printf("\n|---|");
    for (int command = 0; command < COMMANDS; command++) {
        if (o->only == COMMANDS || o->only == command) printf("---|");
    }
    printf("\n");
}

static void print_table(const options *o, const char *head, void (*print)(const column *, unsigned)) {
    printf("\n%s\n\n| density, vertices, edges in the mean |", head);
    print_heads(o);
    for (unsigned at_row = 0; at_row < ROWS; at_row++) {
        if (is_asked(o, at_row)) print_row(o, at_row, print);
    }
}

/* --- what is kept */

/* Writes an input of the longest call; `said` is a line that stands first in the braces. */
static void write_input(const char *name, causal_span content, const char *said) {
    static const char begins[] = "dag {\n";
    size_t start = content.start + sizeof begins - 1;
    FILE *file = fopen(name, "w");
    if (!file) {
        perror(name);
        exit(1);
    }
    fprintf(file, "%swords=\"%s\"\n", begins, said);
    fwrite(longest.asked.bytes + start, 1, content.end - start, file);
    fclose(file);
}

static void keep_longest(const char *name) {
    char second[4096];
    snprintf(second, sizeof second, "%s.second", name);
    write_input(name, longest.asked.inputs[0].content, longest.asked.words.line);
    if (longest.asked.input_count == 2) write_input(second, longest.asked.inputs[1].content, longest.asked.words.line);
}

/* --- words of the program's own */

static int command_of(const char *name) {
    for (int command = 0; command < COMMANDS; command++) {
        if (strcmp(name, command_names[command]) == 0) return command;
    }
    return COMMANDS;
}

/* Takes an option with its value, if it is one that is known and can be. */
static bool take_option(options *o, const char *name, const char *value) {
    unsigned long number = strtoul(value, NULL, 10);
    if (strcmp(name, "--seed") == 0) o->seed = number;
    else if (strcmp(name, "--diagrams") == 0) o->diagrams = (unsigned)number;
    else if (strcmp(name, "--members") == 0) o->members = (unsigned)number;
    else if (strcmp(name, "--vertices") == 0) o->vertices = (unsigned)number;
    else if (strcmp(name, "--chance") == 0) o->chance = (unsigned)number;
    else if (strcmp(name, "--both") == 0) o->both = (int)number;
    else if (strcmp(name, "--only") == 0) o->only = command_of(value);
    else if (strcmp(name, "--keep") == 0) o->keep = value;
    else return false;
    return o->diagrams > 0 && o->members > 0 && (strcmp(name, "--only") != 0 || o->only < COMMANDS);
}

/* Whether a row has that many vertices; 0 stands for any. */
static bool is_size(unsigned vertices) {
    bool is = vertices == 0;
    for (unsigned at_row = 0; at_row < ROWS; at_row++) is = is || rows[at_row].vertices == vertices;
    return is;
}

static void refuse_words(void) {
    fputs("worst [--seed N] [--diagrams N] [--members N] [--vertices N] [--chance N] [--both N] [--only COMMAND] [--keep FILE]\n", stderr);
    exit(2);
}

static options read_options(int count, char **given) {
    options o = {.seed = 1, .diagrams = 1000, .members = 1, .only = COMMANDS, .both = -1};
    for (int i = 1; i < count; i += 2) {
        if (i + 1 == count || !take_option(&o, given[i], given[i + 1])) refuse_words();
    }
    if (!is_size(o.vertices)) refuse_words();
    return o;
}

int main(int count, char **given) {
    options o = read_options(count, given);
    for (unsigned at_row = 0; at_row < ROWS; at_row++) {
        if (is_asked(&o, at_row)) measure_row(&o, at_row);
    }
    print_table(&o, "Milliseconds of the processor: the median, and the worst.", print_times);
    print_table(&o, "KiB: the most heap that a call held, and the longest answer; and how many answers of 100 were yes.", print_sizes);
    printf("\nThe longest: %.3f ms, %s\n", longest.ms, longest.asked.words.line);
    if (o.keep) keep_longest(o.keep);
    return 0;
}
