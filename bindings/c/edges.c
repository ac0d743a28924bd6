/* What include/causal.h says of a call, beside its answers: rooms, spans, names, statuses, threads. */
#include <pthread.h>
#include <stdio.h>
#include <stdlib.h>
#include <string.h>

#include "causal.h"

#define HOLDS(fact) \
    do { \
        if (!(fact)) { \
            fprintf(stderr, "edges: line %d: %s\n", __LINE__, #fact); \
            exit(1); \
        } \
    } while (0)

static const char text[] = "separateg--xA--yCdag{A<-B->C}\xff";
static const causal_span separate[] = {{0, 8}, {8, 9}, {9, 12}, {12, 13}, {13, 16}, {16, 17}};
static const causal_span graph = {17, 29}, name = {8, 9};
static const char answer[] = "not separated: {A} from {C} given {}\nopen: A <- B -> C\n";

enum { ROOM = 8192 };

typedef struct {
    uint8_t status, out[ROOM], err[ROOM];
    causal_sizes sizes;
} result;

static result run_in(size_t out_room, size_t err_room, const causal_span *words, size_t word_count, const causal_input *inputs,
                     size_t input_count) {
    result r;
    memset(&r, '#', sizeof r);
    r.status = causal_run((const uint8_t *)text, sizeof text - 1, words, word_count, inputs, input_count, r.out, out_room, r.err,
                          err_room, &r.sizes);
    return r;
}

static int is_text(const uint8_t *room, size_t size, const char *wanted) {
    return size == strlen(wanted) && memcmp(room, wanted, size) == 0 && room[size] == '#';
}

static void rooms(void) {
    causal_input inputs[] = {{name, graph}};
    result r = run_in(256, 256, separate, 6, inputs, 1);
    HOLDS(r.status == CAUSAL_NO && is_text(r.out, r.sizes.out, answer) && is_text(r.err, r.sizes.err, ""));
    for (size_t room = 0; room < sizeof answer; room++) {
        r = run_in(room, 0, separate, 6, inputs, 1);
        HOLDS(r.status == CAUSAL_NO && r.sizes.out == strlen(answer) && r.sizes.err == 0);
        HOLDS(memcmp(r.out, answer, room) == 0 && r.out[room] == '#');
    }
    causal_sizes sizes = {7, 7};
    HOLDS(causal_run((const uint8_t *)text, sizeof text - 1, separate, 6, inputs, 1, NULL, 0, NULL, 0, &sizes) == CAUSAL_NO);
    HOLDS(sizes.out == strlen(answer) && sizes.err == 0);
    HOLDS(causal_run(NULL, 0, NULL, 0, NULL, 0, NULL, 0, NULL, 0, &sizes) == CAUSAL_WORDS && sizes.out == 0 && sizes.err > 0);
}

static void spans(void) {
    size_t most = (size_t)-1;
    /* past the end: the bytes that are there, here with one that is no text */
    causal_input past[] = {{name, {17, most}}};
    HOLDS(run_in(256, 256, separate, 6, past, 1).status == CAUSAL_GRAPH);
    /* an end that isn't behind its start: empty */
    causal_input turned[] = {{name, {29, 17}}}, beyond[] = {{name, {most, most}}};
    HOLDS(run_in(256, 256, separate, 6, turned, 1).status == CAUSAL_GRAPH);
    HOLDS(run_in(256, 256, separate, 6, beyond, 1).status == CAUSAL_GRAPH);
}

static void names(void) {
    /* the first input of a name counts */
    causal_input twice[] = {{{12, 13}, {29, 29}}, {name, graph}, {name, {29, 30}}};
    HOLDS(run_in(256, 256, separate, 6, twice, 3).status == CAUSAL_NO);
    causal_input other[] = {{name, {29, 30}}, {name, graph}};
    HOLDS(run_in(256, 256, separate, 6, other, 2).status == CAUSAL_GRAPH);
    /* an input that isn't there */
    result r = run_in(256, 256, separate, 6, twice, 1);
    HOLDS(r.status == CAUSAL_NO_INPUT && r.sizes.out == 0 && r.sizes.err > 0);
}

static void statuses(void) {
    causal_input inputs[] = {{name, graph}};
    /* words in another order */
    causal_span other[] = {{8, 9}, {0, 8}};
    HOLDS(run_in(256, 256, other, 2, inputs, 1).status == CAUSAL_WORDS);
    /* a word that isn't UTF-8 */
    causal_span not_text[] = {{0, 8}, {29, 30}};
    result r = run_in(256, 256, not_text, 2, inputs, 1);
    HOLDS(r.status == CAUSAL_NOT_TEXT && is_text(r.out, r.sizes.out, "") && is_text(r.err, r.sizes.err, ""));
}

/* Words with a blank between them, run over a diagram g and a certificate c. */
static result run_over(const char *line, const char *diagram, const char *certificate) {
    char bytes[1024];
    causal_span words[16];
    size_t count = 0, end = 0, at = (size_t)snprintf(bytes, sizeof bytes, "%s|%s|%s|gc", line, diagram, certificate);
    size_t length = strlen(line), second = length + 1 + strlen(diagram), third = second + 1 + strlen(certificate);
    for (size_t start = 0; start <= length; start = end + 1) {
        for (end = start; end < length && bytes[end] != ' '; end++) continue;
        words[count++] = (causal_span){start, end};
    }
    causal_input inputs[] = {{{at - 2, at - 1}, {length + 1, second}}, {{at - 1, at}, {second + 1, third}}};
    result r;
    memset(&r, '#', sizeof r);
    r.status = causal_run((const uint8_t *)bytes, at, words, count, inputs, 2, r.out, ROOM, r.err, ROOM, &r.sizes);
    return r;
}

static int tells(result r, uint8_t status, const char *out, const char *err) {
    return r.status == status && is_text(r.out, r.sizes.out, out) && is_text(r.err, r.sizes.err, err);
}

/* Whether the answer has a part. */
static int shows(result r, uint8_t status, const char *part) {
    r.out[r.sizes.out < ROOM ? r.sizes.out : ROOM - 1] = 0;
    return r.status == status && strstr((const char *)r.out, part) != NULL;
}

static const char front[] = "dag{X [exposure] Y [outcome] X->M->Y X<->Y}", hidden[] = "dag{X [exposure] Y [outcome] X<-U->Y U [latent] Z->X->Y}",
                  turning[] = "dag{X [exposure] Y [outcome] X->Y X<->Y Z->Y}", unknown[] = "dag{X->Y X<->Y Y->Z}";
static const char certificate[] =
    "{\"answer\":\"formula\",\"defs\":[],\"formula\":\"P(M|X)\",\"lemmas\":[],\"main\":[\"rule2see\",[\"X\"]],"
    "\"version\":1,\"x\":[\"X\"],\"y\":[\"M\"]}";

/* the steps of a derivation */
static void steps(void) {
    HOLDS(tells(run_over("steps g c", front, certificate), CAUSAL_YES, "main\nP(M|do(X))\nrule2see: P(M|X)\n", ""));
    HOLDS(shows(run_over("steps g c --json", front, certificate), CAUSAL_YES,
                "\"rule\":{\"number\":2,\"y\":[\"M\"],\"z\":[\"X\"],\"do\":[],\"given\":[],"
                "\"graph\":{\"directed\":[[\"M\",\"Y\"]],\"bidirected\":[[\"X\",\"Y\"]]}}"));
    HOLDS(tells(run_over("steps g h", front, certificate), CAUSAL_NO_INPUT, "", "causal: read failed\n"));
    HOLDS(run_over("steps g", front, certificate).status == CAUSAL_WORDS);
    result r = run_over("steps g c", front, "{}");
    HOLDS(r.status == CAUSAL_SECOND && r.sizes.out == 0 && memcmp(r.err, "causal: certificate fault ", 26) == 0);
}

/* the graph in which a rule is asked, whether it holds or not, after hidden vertices are projected away */
static void rule_graphs(void) {
    HOLDS(shows(run_over("rule g --rule 1 --y Y --z Z --json", hidden, ""), CAUSAL_NO,
                "\"graph\":{\"directed\":[[\"X\",\"Y\"],[\"Z\",\"X\"]],\"bidirected\":[[\"X\",\"Y\"]]}}\n"));
    HOLDS(shows(run_over("rule g --rule 1 --y Y --z Z --do X --json", hidden, ""), CAUSAL_YES, "\"graph\":{\"directed\":[[\"X\",\"Y\"]],\"bidirected\":[]}}\n"));
    HOLDS(shows(run_over("rule g --rule 2 --y Y --z X --given Z --json", hidden, ""), CAUSAL_NO,
                "\"graph\":{\"directed\":[[\"Z\",\"X\"]],\"bidirected\":[[\"X\",\"Y\"]]}}\n"));
    HOLDS(shows(run_over("rule g --rule 3 --y Y --z X --json", hidden, ""), CAUSAL_NO, "\"graph\":{\"directed\":[[\"X\",\"Y\"]],\"bidirected\":[]}}\n"));
    /* z is an ancestor of what is observed, so rule 3 cuts nothing there */
    HOLDS(shows(run_over("rule g --rule 3 --y Y --z X --given M --json", front, ""), CAUSAL_NO,
                "\"graph\":{\"directed\":[[\"X\",\"M\"],[\"M\",\"Y\"]],\"bidirected\":[[\"X\",\"Y\"]]}}\n"));
    HOLDS(tells(run_over("rule g --rule 2 --y U --z X", hidden, ""), CAUSAL_GRAPH, "", "causal: target fault 2: U\n"));
    HOLDS(run_over("rule g --rule 4 --y Y --z X", front, "").status == CAUSAL_WORDS);
}

/* an adjustment formula in LaTeX, by one of two criteria */
static void adjustment_formulas(void) {
    HOLDS(shows(run_over("adjust g --set M --x X --y Y --json", "dag{X->Y M->X M->Y}", ""), CAUSAL_YES,
                "\"latex\":\"P(Y \\\\mid \\\\mathrm{do}(X)) = \\\\sum_{M} P(M) P(Y \\\\mid X, M)\""));
    HOLDS(shows(run_over("adjust g --set {} --back-door --json", "dag{X [exposure] Y [outcome] X->Y}", ""), CAUSAL_YES,
                "\"latex\":\"P(Y \\\\mid \\\\mathrm{do}(X)) = P(Y \\\\mid X)\""));
    HOLDS(shows(run_over("adjust g --set M --json", front, ""), CAUSAL_NO, "{\"answer\":\"not admissible\""));
    HOLDS(tells(run_over("adjust g --set {} --x X,M --back-door", front, ""), CAUSAL_GRAPH, "", "causal: target fault 6\n"));
}

/* whether the two models of a joint effect differ on the effect under the condition too */
static void settled(void) {
    static const char known[] = "dag{X->Y X<->Y Z->Y Z<->Y}", yes[] = "\"settled\":true", no[] = "\"settled\":false";
    result r = run_over("identify g --given Z --json", "dag{X [exposure] Y [outcome] Z->X Z->Y X->Y}", "");
    HOLDS(shows(r, CAUSAL_YES, "{\"answer\":\"formula\"") && !shows(r, CAUSAL_YES, "settled"));
    /* Z may as well be set: no observation is left */
    HOLDS(shows(run_over("identify g --given Z --json", turning, ""), CAUSAL_NO, yes));
    /* Z is left, and P(Z|do(X)) is P(Z) */
    HOLDS(shows(run_over("identify g --given Z --x X --y Y --json", known, ""), CAUSAL_NO, yes));
    /* Z is left, and P(Z|do(X)) has a hedge */
    HOLDS(shows(run_over("identify g --y Y --x X --given {Z} --json", unknown, ""), CAUSAL_NO, no));
    HOLDS(shows(run_over("identify g --given Z --json", "dag{X [exposure] Y [outcome] X<-U->Y U [latent] X->Y->Z}", ""), CAUSAL_NO, no));
    HOLDS(shows(run_over("identify g --given Z --x {} --y Y --json", turning, ""), CAUSAL_YES, "{\"answer\":\"formula\""));
    /* refusals */
    HOLDS(tells(run_over("identify g --given U", hidden, ""), CAUSAL_GRAPH, "", "causal: target fault 2: U\n"));
    HOLDS(tells(run_over("identify g --given X", turning, ""), CAUSAL_GRAPH, "", "causal: target fault 3: X\n"));
    HOLDS(tells(run_over("identify g --given Z", unknown, ""), CAUSAL_GRAPH, "", "causal: target fault 4\n"));
    HOLDS(tells(run_over("identify g --given Z", "dag{X-->Y}", ""), CAUSAL_GRAPH, "", "causal: graph fault 2: byte 5\n"));
    HOLDS(tells(run_over("identify h --given Z", turning, ""), CAUSAL_NO_INPUT, "", "causal: read failed\n"));
}

static void kept(void) {
    static const char text[] = "dag{A<-U->B B->C U [latent]}", other[] = "dag{A->}", lines[] = "A\nU\nB\nC\n";
    causal_diagram diagram = {0};
    uint8_t names[64];
    size_t size = 9;
    HOLDS(causal_separated(&diagram, 1, 2, 0) == CAUSAL_GRAPH);
    memset(names, '#', sizeof names);
    HOLDS(causal_keep((const uint8_t *)text, sizeof text - 1, &diagram, names, sizeof names, &size) == CAUSAL_YES);
    HOLDS(is_text(names, size, lines) && names[size] == '#');
    const causal_graph *graph = &diagram.observed;
    HOLDS(graph->vertices == 3 && diagram.read.vertices == 4 && diagram.latent == 2 && diagram.exposures == 0);
    HOLDS(graph->spouses[0] == 2 && graph->spouses[1] == 1 && graph->children[1] == 4 && graph->parents[2] == 2);
    HOLDS(diagram.read.children[1] == 5 && diagram.read.spouses[0] == 0);
    HOLDS(causal_separated(&diagram, 1, 4, 2) == CAUSAL_YES && causal_separated(&diagram, 1, 4, 0) == CAUSAL_NO);
    /* sets that can't be asked: no x, one beyond the graph, two that meet */
    HOLDS(causal_separated(&diagram, 0, 4, 2) == CAUSAL_GRAPH && causal_separated(&diagram, 1, 0, 2) == CAUSAL_GRAPH);
    HOLDS(causal_separated(&diagram, 1, 8, 0) == CAUSAL_GRAPH && causal_separated(&diagram, 1, 4, 4) == CAUSAL_GRAPH);
    /* whether an effect has a formula; x may be empty, and y not */
    HOLDS(causal_is_identifiable(&diagram, 2, 4) == CAUSAL_YES && causal_is_identifiable(&diagram, 0, 4) == CAUSAL_YES);
    HOLDS(causal_is_identifiable(&diagram, 2, 0) == CAUSAL_GRAPH && causal_is_identifiable(&diagram, 2, 6) == CAUSAL_GRAPH);
    HOLDS(causal_is_identifiable(&diagram, 8, 4) == CAUSAL_GRAPH && causal_is_identifiable(&diagram, 2, 8) == CAUSAL_GRAPH);
    static const char bow[] = "dag{A->B A<->B B->C}";
    causal_diagram confounded = {0};
    HOLDS(causal_is_identifiable(&confounded, 1, 2) == CAUSAL_GRAPH);
    HOLDS(causal_keep((const uint8_t *)bow, sizeof bow - 1, &confounded, NULL, 0, &size) == CAUSAL_YES);
    HOLDS(causal_is_identifiable(&confounded, 1, 2) == CAUSAL_NO && causal_is_identifiable(&confounded, 1, 4) == CAUSAL_NO);
    HOLDS(causal_is_identifiable(&confounded, 2, 4) == CAUSAL_YES && causal_is_identifiable(&confounded, 3, 4) == CAUSAL_YES);
    /* whether a set is admissible; neither x nor y may be empty */
    static const char fork[] = "dag{A<-B->C A->C}";
    causal_diagram forked = {0};
    HOLDS(causal_is_admissible(&confounded, 2, 4, 0) == CAUSAL_YES && causal_is_admissible(&confounded, 1, 4, 0) == CAUSAL_NO);
    HOLDS(causal_is_admissible(&confounded, 1, 4, 2) == CAUSAL_NO && causal_is_admissible(&confounded, 0, 4, 2) == CAUSAL_GRAPH);
    HOLDS(causal_is_admissible(&confounded, 1, 0, 2) == CAUSAL_GRAPH && causal_is_admissible(&confounded, 1, 4, 4) == CAUSAL_GRAPH);
    HOLDS(causal_is_admissible(&confounded, 1, 4, 8) == CAUSAL_GRAPH);
    HOLDS(causal_keep((const uint8_t *)fork, sizeof fork - 1, &forked, NULL, 0, &size) == CAUSAL_YES);
    HOLDS(causal_is_admissible(&forked, 1, 4, 2) == CAUSAL_YES && causal_is_admissible(&forked, 1, 4, 0) == CAUSAL_NO);
    /* a text that is refused changes nothing */
    HOLDS(causal_keep((const uint8_t *)other, sizeof other - 1, &diagram, names, sizeof names, &size) == CAUSAL_GRAPH && size == 0);
    HOLDS(graph->vertices == 3 && causal_separated(&diagram, 1, 4, 2) == CAUSAL_YES && memcmp(names, lines, sizeof lines - 1) == 0);
    /* less room has the first bytes, and no room is none */
    HOLDS(causal_keep((const uint8_t *)text, sizeof text - 1, &diagram, names, 1, &size) == CAUSAL_YES && size == sizeof lines - 1);
    HOLDS(causal_keep((const uint8_t *)text, sizeof text - 1, &diagram, NULL, 0, &size) == CAUSAL_YES && size == sizeof lines - 1);
}

/* A text of exactly 1,048,576 bytes is kept, and one of a byte more isn't. */
static void kept_at_the_limit(void) {
    enum { most = 1048576 };
    causal_diagram diagram = {0};
    uint8_t names[8], *long_text = malloc(most + 1);
    size_t size = 9;
    HOLDS(long_text != NULL);
    memset(long_text, ' ', most + 1);
    memcpy(long_text, "dag{A->B}", 9);
    HOLDS(causal_keep(long_text, most, &diagram, names, sizeof names, &size) == CAUSAL_YES && size == 4 && memcmp(names, "A\nB\n", 4) == 0);
    HOLDS(diagram.observed.vertices == 2 && diagram.observed.children[0] == 2);
    HOLDS(causal_keep(long_text, most + 1, &diagram, names, sizeof names, &size) == CAUSAL_GRAPH && size == 0 && diagram.observed.vertices == 2);
    free(long_text);
}

/* A second input of one byte over its limit is refused, and so is one of a run. */
static void second_over_its_limit(void) {
    enum { most = 1048576, words_end = 13 };
    static const char line[] = "equivalent|gc", diagram_text[] = "dag{X->Y}";
    static const char refusal[] = "causal: second graph fault 12: over 1048576 bytes\n";
    const causal_span words[] = {{0, 10}, {11, 12}, {12, 13}};
    causal_diagram diagram = {0};
    causal_sizes sizes;
    uint8_t names[8], out[64], err[64], *bytes = malloc(words_end + most + 1);
    size_t size;
    HOLDS(bytes != NULL);
    HOLDS(causal_keep((const uint8_t *)diagram_text, sizeof diagram_text - 1, &diagram, names, sizeof names, &size) == CAUSAL_YES);
    memset(bytes, ' ', words_end + most + 1);
    memcpy(bytes, line, words_end);
    memcpy(bytes + words_end, diagram_text, sizeof diagram_text - 1);
    for (size_t more = 0; more < 2; more++) {
        causal_input inputs[] = {{{12, 13}, {words_end, words_end + most + more}}, {{11, 12}, {words_end, words_end + sizeof diagram_text - 1}}};
        uint8_t wanted = more ? CAUSAL_SECOND : CAUSAL_YES;
        size_t all = words_end + most + more;
        HOLDS(causal_ask(&diagram, names, size, bytes, all, words, 3, inputs, 2, out, sizeof out, err, sizeof err, &sizes) == wanted);
        HOLDS(sizes.err == (more ? sizeof refusal - 1 : 0) && (!more || memcmp(err, refusal, sizes.err) == 0));
        HOLDS(causal_run(bytes, all, words, 3, inputs, 2, out, sizeof out, err, sizeof err, &sizes) == wanted);
        HOLDS(sizes.err == (more ? sizeof refusal - 1 : 0) && (!more || memcmp(err, refusal, sizes.err) == 0));
    }
    free(bytes);
}

/* Asks a diagram that is kept by words with a blank between them, with a second input c; `fewer` leaves out bytes of its names. */
static result ask_in(const char *text, size_t fewer, const char *line, const char *second) {
    causal_diagram diagram = {0};
    uint8_t names[256];
    size_t size, end, count = 0;
    HOLDS(causal_keep((const uint8_t *)text, strlen(text), &diagram, names, sizeof names, &size) == CAUSAL_YES);
    char bytes[1024];
    size_t length = strlen(line), at = (size_t)snprintf(bytes, sizeof bytes, "%s|%s|c", line, second);
    causal_span words[16];
    for (size_t start = 0; start <= length; start = end + 1) {
        for (end = start; end < length && bytes[end] != ' '; end++) continue;
        words[count++] = (causal_span){start, end};
    }
    causal_input inputs[] = {{{at - 1, at}, {length + 1, at - 2}}};
    result r;
    memset(&r, '#', sizeof r);
    r.status = causal_ask(&diagram, names, size - fewer, (const uint8_t *)bytes, at, words, count, inputs, 1, r.out, ROOM, r.err, ROOM, &r.sizes);
    return r;
}

static void asked(void) {
    static const char fork[] = "dag{X [exposure] Y [outcome] X->Y X<-Z->Y}", bow[] = "dag{X->Y X<->Y}", hidden[] = "dag{A<-U->B B->C U [latent]}";
    HOLDS(tells(ask_in(fork, 0, "identify any", ""), CAUSAL_YES, "P(Y|do(X)) = sum{Z} P(Z) * P(Y|X,Z)\n", ""));
    HOLDS(tells(ask_in(fork, 0, "identify - --x X --y Y --given Z", ""), CAUSAL_YES, "P(Y|do(X),Z) = P(Y|X,Z)\n", ""));
    HOLDS(tells(ask_in(fork, 0, "adjust g", ""), CAUSAL_YES, "{Z}\n", ""));
    HOLDS(tells(ask_in(fork, 0, "adjust g --set {}", ""), CAUSAL_NO, "not admissible: {}\nopen: X <- Z -> Y\n", ""));
    HOLDS(tells(ask_in(fork, 0, "adjust g --set Z --back-door", ""), CAUSAL_YES, "admissible: {Z}\nP(Y|do(X)) = sum{Z} P(Z) * P(Y|X,Z)\n", ""));
    HOLDS(tells(ask_in(hidden, 0, "separate g --x A --y C --given B", ""), CAUSAL_YES, "separated: {A} from {C} given {B}\n", ""));
    HOLDS(tells(ask_in(hidden, 0, "graph g", ""), CAUSAL_YES, "dag {\nA\nU [latent]\nB\nC\nU -> A\nU -> B\nB -> C\n}\n", ""));
    HOLDS(tells(ask_in(bow, 0, "identify g --x X --y U", ""), CAUSAL_GRAPH, "", "causal: target fault 1: U\n"));
    HOLDS(ask_in(bow, 0, "identify g --x X --y Y", "").status == CAUSAL_NO);
    HOLDS(tells(ask_in(front, 0, "steps g c", certificate), CAUSAL_YES, "main\nP(M|do(X))\nrule2see: P(M|X)\n", ""));
    HOLDS(shows(ask_in(unknown, 0, "identify g --x X --y Y --given Z --json", ""), CAUSAL_NO, "\"settled\":false"));
    /* a second input is one of the inputs, and the diagram isn't */
    HOLDS(tells(ask_in("dag{X->Y}", 0, "equivalent g c", "dag{X<-Y}"), CAUSAL_YES, "equivalent\n", ""));
    HOLDS(tells(ask_in("dag{X->Y}", 0, "equivalent g g", "dag{X<-Y}"), CAUSAL_NO_INPUT, "", "causal: read failed\n"));
    HOLDS(ask_in(bow, 0, "identify", "").status == CAUSAL_WORDS && ask_in(bow, 0, "survey 1", "").status == CAUSAL_YES);
    /* names that aren't those of the diagram */
    HOLDS(tells(ask_in(bow, 1, "identify g --x X --y Y", ""), CAUSAL_NOT_KEPT, "", ""));
    HOLDS(tells(ask_in(bow, 2, "identify g --x X --y Y", ""), CAUSAL_NOT_KEPT, "", ""));
}

static void *many(void *unused) {
    causal_input inputs[] = {{name, graph}};
    for (int i = 0; i < 200; i++) {
        result r = run_in(256, 256, separate, 6, inputs, 1);
        HOLDS(r.status == CAUSAL_NO && is_text(r.out, r.sizes.out, answer));
    }
    return unused;
}

static void threads(void) {
    pthread_t six[6];
    for (int i = 0; i < 6; i++) HOLDS(pthread_create(&six[i], NULL, many, NULL) == 0);
    for (int i = 0; i < 6; i++) HOLDS(pthread_join(six[i], NULL) == 0);
}

int main(void) {
    rooms();
    spans();
    names();
    statuses();
    steps();
    rule_graphs();
    adjustment_formulas();
    settled();
    kept();
    kept_at_the_limit();
    second_over_its_limit();
    asked();
    threads();
    puts("edges: all hold");
    return 0;
}
