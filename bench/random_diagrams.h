/* Random diagrams by a fixed generator, their texts, and calls about them: what worst.c and threads.c have in common. */
#ifndef RANDOM_DIAGRAMS_H
#define RANDOM_DIAGRAMS_H

#include "causal.h"

#include <inttypes.h>
#include <stdbool.h>
#include <stdio.h>
#include <stdlib.h>
#include <string.h>

enum { MOST_VERTICES = 64, MOST_EDGES = MOST_VERTICES * (MOST_VERTICES - 1) / 2, TEXT_ROOM = 32 * 1024, LINE_ROOM = 512 };

/* --- numbers */

/* splitmix64 (Steele, Lea and Flood 2014): the same numbers from the same seed on every machine. */
static inline uint64_t next_number(uint64_t *source) {
    uint64_t mixed = *source += 0x9e3779b97f4a7c15;
    mixed = (mixed ^ mixed >> 30) * 0xbf58476d1ce4e5b9;
    mixed = (mixed ^ mixed >> 27) * 0x94d049bb133111eb;
    return mixed ^ mixed >> 31;
}

/* The source of the numbers of one diagram: each has its own, so it doesn't matter who draws it, nor what was drawn before. */
static inline uint64_t source_of(uint64_t seed, uint64_t kind, uint64_t diagram) {
    uint64_t source = seed;
    source = next_number(&source) ^ kind;
    source = next_number(&source) ^ diagram;
    return next_number(&source);
}

/* A number below the bound. */
static inline unsigned below(uint64_t *source, unsigned bound) {
    return (unsigned)((next_number(source) >> 32) * bound >> 32);
}

/* --- diagrams */

/* An edge: from a cause to its effect, or with arrowheads at both ends. */
typedef struct {
    unsigned char from, to;
    bool both;
} drawn_edge;

/* A diagram: `order` has each vertex once, a cause before its effects. */
typedef struct {
    unsigned vertices, edge_count;
    unsigned char order[MOST_VERTICES];
    drawn_edge edges[MOST_EDGES];
} drawn_diagram;

/* How likely it is that an edge joins two vertices: `edges` in `pairs`. */
typedef struct {
    unsigned edges, pairs;
} density;

/* Vertices in a random order, each as likely as any other (Fisher and Yates). */
static inline void draw_order(drawn_diagram *d, uint64_t *source) {
    for (unsigned i = 0; i < d->vertices; i++) {
        unsigned place = below(source, i + 1);
        d->order[i] = d->order[place];
        d->order[place] = (unsigned char)i;
    }
}

/* Joins the vertex at that place of the order to later ones; `both_of_20` edges in 20 are bidirected. */
static inline void draw_edges_from(drawn_diagram *d, unsigned place, density dense, unsigned both_of_20, uint64_t *source) {
    for (unsigned later = place + 1; later < d->vertices; later++) {
        if (below(source, dense.pairs) >= dense.edges) continue;
        bool both = below(source, 20) < both_of_20;
        d->edges[d->edge_count++] = (drawn_edge){d->order[place], d->order[later], both};
    }
}

/* How many edges of 20 are bidirected in a diagram: 1, 2, 4 or 8. */
static inline unsigned draw_share(uint64_t *source) {
    static const unsigned char shares[] = {1, 2, 4, 8};
    return shares[below(source, sizeof shares)];
}

/* A random diagram: any order of causes, an edge for each pair with the same chance, and of the edges so many in 20 bidirected. */
static inline void draw_diagram(drawn_diagram *d, unsigned vertices, density dense, unsigned both_of_20, uint64_t *source) {
    d->vertices = vertices;
    d->edge_count = 0;
    draw_order(d, source);
    for (unsigned place = 0; place < vertices; place++) draw_edges_from(d, place, dense, both_of_20, source);
}

/* --- texts */

/* A text that grows; what goes past its room ends the program. */
typedef struct {
    size_t size;
    char bytes[TEXT_ROOM];
} text;

static inline void add(text *t, const char *part) {
    size_t size = strlen(part);
    if (size > sizeof t->bytes - t->size) {
        fputs("a text has more bytes than its room\n", stderr);
        exit(1);
    }
    memcpy(t->bytes + t->size, part, size);
    t->size += size;
}

static inline void add_vertex(text *t, unsigned vertex) {
    char name[16];
    snprintf(name, sizeof name, "v%u", vertex);
    add(t, name);
}

static inline void add_edge(text *t, drawn_edge edge) {
    add_vertex(t, edge.from);
    add(t, edge.both ? " <-> " : " -> ");
    add_vertex(t, edge.to);
    add(t, "\n");
}

static inline void add_names(text *t, unsigned vertices) {
    for (unsigned v = 0; v < vertices; v++) {
        add_vertex(t, v);
        add(t, "\n");
    }
}

/* The diagram as graph text: each vertex in a line of its own, and then each edge. */
static inline void write_diagram(text *t, const drawn_diagram *d) {
    t->size = 0;
    add(t, "dag {\n");
    add_names(t, d->vertices);
    for (unsigned i = 0; i < d->edge_count; i++) add_edge(t, d->edges[i]);
    add(t, "}\n");
}

/* --- calls */

/* The words of a call, from a line in which one blank stands between two of them. */
typedef struct {
    size_t size, count;
    char line[LINE_ROOM];
    causal_span spans[16];
} word_line;

/* Finds the words of the line. */
static inline void split(word_line *w) {
    size_t start = 0;
    w->size = strlen(w->line);
    w->count = 0;
    for (size_t i = 0; i <= w->size; i++) {
        if (i < w->size && w->line[i] != ' ') continue;
        w->spans[w->count++] = (causal_span){start, i};
        start = i + 1;
    }
}

#endif
