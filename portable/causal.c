/* The calls of causal.h over the C of the compiled library (causal_code.c), and the few functions that this code calls.
 *
 * Where an address has 64 bits and the least byte comes first, what callers pass is as the code reads it. Elsewhere it is turned:
 * a `size_t` becomes 8 bytes with the least first, and so do the words of a diagram. */
#include "causal.h"

#include "portable.h"

I causal_run_code(L, L, L, L, L, L, L, L, L, L, L);
I causal_inputs_code(L, L, L, L, L, L, L);
I causal_keep_code(L, L, L, L, L, L);
I causal_separated_code(L, L, L, L);
I causal_is_identifiable_code(L, L, L);
I causal_is_admissible_code(L, L, L, L);
I causal_ask_code(L, L, L, L, L, L, L, L, L, L, L, L, L, L);

#define AS_IT_IS (UINTPTR_MAX > 0xffffffffu && !BIG_ENDIAN_MEMORY)

static L at(const void *p) { return (L)(uintptr_t)p; }

#if GNU_BUILTINS
void trap(void) { __builtin_trap(); }
#else
void trap(void) { abort(); }
#endif

/* --- the heap */

#if UINTPTR_MAX > 0xffffffffu
static void *take(L size) { return malloc((size_t)size); }
static void *take_again(void *old, L kept, L size) { (void)kept; return realloc(old, (size_t)size); }
static void give(void *p) { free(p); }
#else
/* On platforms of 32 bits `malloc` may give multiples of 8, and the code is owed multiples of 16: what was given stands before them. */
static void *take(L size) {
  if (size > 0x7fffffffu) return NULL;
  unsigned char *whole = malloc((size_t)size + 16 + sizeof(void *)), *p;
  if (!whole) return NULL;
  p = whole + sizeof(void *);
  p += (0 - (uintptr_t)p) & 15;
  memcpy(p - sizeof(void *), &whole, sizeof(void *));
  return p;
}
static void give(void *p) {
  void *whole;
  if (!p) return;
  memcpy(&whole, (unsigned char *)p - sizeof(void *), sizeof(void *));
  free(whole);
}
static void *take_again(void *old, L kept, L size) {
  void *p = take(size);
  if (!p) return NULL;
  memcpy(p, old, (size_t)(kept < size ? kept : size));
  give(old);
  return p;
}
#endif

/* Whether there is memory, and where; at `to`. */
static void tried(L to, const void *p) {
  static const unsigned char nothing[16] = {0};
  P8(to, (L)(p != NULL));
  P8(to + 8, at(p ? p : nothing));
}

void rattle_alloc(L to, L size, L align) { tried(to, take(size ? size : align)); }

void rattle_realloc(L to, L old, L kept, L size, L align) {
  tried(to, take_again((void *)(uintptr_t)old, kept, size ? size : align));
}

void rattle_dealloc(L old) { give((void *)(uintptr_t)old); }

/* --- what callers pass: each macro is what the code is given, or what comes before and behind the call */

#if AS_IT_IS

#define BEGIN(inputs, input_count)
#define WORDS_OF(words) at(words)
#define INPUTS_OF(inputs) at(inputs)
#define SIZES at(sizes)
#define END(code) return (uint8_t)(code)

#else

/* Numbers of the caller, each as 8 bytes. */
static L *turned(const size_t *from, size_t count) {
  L *to = count > ((size_t)-1 >> 1) / sizeof *to ? NULL : malloc(count ? count * sizeof *to : 1);
  for (size_t i = 0; to && i < count; i++) P8(at(to + i), from[i]);
  return to;
}

#define BEGIN(inputs, input_count) \
  L wide[2] = {0, 0}, *wide_words = turned((const size_t *)words, 2 * word_count); \
  L *wide_inputs = turned((const size_t *)(inputs), 4 * (input_count)); \
  if (!wide_words || !wide_inputs) { \
    free(wide_words); \
    free(wide_inputs); \
    sizes->out = sizes->err = 0; \
    return CAUSAL_NO_WORDS; \
  }
#define WORDS_OF(words) at(wide_words)
#define INPUTS_OF(inputs) at(wide_inputs)
#define SIZES at(wide)
#define END(code) \
  I status = (code); \
  free(wide_words); \
  free(wide_inputs); \
  sizes->out = (size_t)R8(at(wide)); \
  sizes->err = (size_t)R8(at(wide) + 8); \
  return (uint8_t)status

#endif

/* Before a call of the code: where the data has to be turned, it is. */
#if BIG_ENDIAN_MEMORY
#define READY causal_data_begin();
#else
#define READY
#endif

/* --- diagrams: as they are, or in 390 words of 8 bytes */

#if AS_IT_IS

#define KEPT(diagram) at(diagram)

#else

enum { DIAGRAM = 390, GRAPH = 193 };

static void graph_in(L to, const causal_graph *graph) {
  P8(to, graph->vertices);
  for (int i = 0; i < 64; i++) {
    P8(to + 8 + 8 * i, graph->parents[i]);
    P8(to + 520 + 8 * i, graph->children[i]);
    P8(to + 1032 + 8 * i, graph->spouses[i]);
  }
}

static void graph_out(L from, causal_graph *graph) {
  graph->vertices = R4(from);
  for (int i = 0; i < 64; i++) {
    graph->parents[i] = R8(from + 8 + 8 * i);
    graph->children[i] = R8(from + 520 + 8 * i);
    graph->spouses[i] = R8(from + 1032 + 8 * i);
  }
}

static L diagram_in(L *room, const causal_diagram *diagram) {
  L to = at(room);
  graph_in(to, &diagram->observed);
  graph_in(to + 8 * GRAPH, &diagram->read);
  P8(to + 16 * GRAPH, diagram->exposures);
  P8(to + 16 * GRAPH + 8, diagram->outcomes);
  P8(to + 16 * GRAPH + 16, diagram->adjusted);
  P8(to + 16 * GRAPH + 24, diagram->latent);
  return to;
}

static void diagram_out(const L *room, causal_diagram *diagram) {
  L from = at(room);
  graph_out(from, &diagram->observed);
  graph_out(from + 8 * GRAPH, &diagram->read);
  diagram->exposures = R8(from + 16 * GRAPH);
  diagram->outcomes = R8(from + 16 * GRAPH + 8);
  diagram->adjusted = R8(from + 16 * GRAPH + 16);
  diagram->latent = R8(from + 16 * GRAPH + 24);
}

#define KEPT(diagram) diagram_in(kept, diagram)

#endif

/* --- the calls */

uint8_t causal_run(const uint8_t *bytes, size_t length, const causal_span *words, size_t word_count,
                   const causal_input *inputs, size_t input_count, uint8_t *out, size_t out_room,
                   uint8_t *err, size_t err_room, causal_sizes *sizes) {
  BEGIN(inputs, input_count)
  READY
  END(causal_run_code(at(bytes), length, WORDS_OF(words), word_count, INPUTS_OF(inputs), input_count,
                      at(out), out_room, at(err), err_room, SIZES));
}

uint8_t causal_ask(const causal_diagram *diagram, const uint8_t *names, size_t names_size,
                   const uint8_t *bytes, size_t length, const causal_span *words, size_t word_count,
                   const causal_input *inputs, size_t input_count, uint8_t *out, size_t out_room,
                   uint8_t *err, size_t err_room, causal_sizes *sizes) {
#if !AS_IT_IS
  L kept[DIAGRAM];
#endif
  BEGIN(inputs, input_count)
  READY
  END(causal_ask_code(KEPT(diagram), at(names), names_size, at(bytes), length, WORDS_OF(words), word_count,
                      INPUTS_OF(inputs), input_count, at(out), out_room, at(err), err_room, SIZES));
}

uint8_t causal_inputs(const uint8_t *bytes, size_t length, const causal_span *words, size_t word_count,
                      uint8_t *names, size_t names_room, causal_wanted *wanted) {
  READY
#if AS_IT_IS
  return (uint8_t)causal_inputs_code(at(bytes), length, at(words), word_count, at(names), names_room, at(wanted));
#else
  L wide[4] = {0, 0, 0, 0}, *wide_words = turned((const size_t *)words, 2 * word_count);
  I status = CAUSAL_NO_WORDS;
  if (wide_words) status = causal_inputs_code(at(bytes), length, at(wide_words), word_count, at(names), names_room, at(wide));
  free(wide_words);
  wanted->count = (size_t)R8(at(wide));
  wanted->file = (size_t)R8(at(wide) + 8);
  wanted->second = (size_t)R8(at(wide) + 16);
  wanted->most = R8(at(wide) + 24);
  return (uint8_t)status;
#endif
}

uint8_t causal_keep(const uint8_t *text, size_t length, causal_diagram *diagram,
                    uint8_t *names, size_t names_room, size_t *names_size) {
  READY
#if AS_IT_IS
  return (uint8_t)causal_keep_code(at(text), length, at(diagram), at(names), names_room, at(names_size));
#else
  L kept[DIAGRAM], wide = 0;
  diagram_in(kept, diagram);
  I status = causal_keep_code(at(text), length, at(kept), at(names), names_room, at(&wide));
  if (status == CAUSAL_YES) diagram_out(kept, diagram);
  *names_size = (size_t)R8(at(&wide));
  return (uint8_t)status;
#endif
}

uint8_t causal_separated(const causal_diagram *diagram, uint64_t x, uint64_t y, uint64_t given) {
#if !AS_IT_IS
  L kept[DIAGRAM];
#endif
  READY
  return (uint8_t)causal_separated_code(KEPT(diagram), x, y, given);
}

uint8_t causal_is_identifiable(const causal_diagram *diagram, uint64_t x, uint64_t y) {
#if !AS_IT_IS
  L kept[DIAGRAM];
#endif
  READY
  return (uint8_t)causal_is_identifiable_code(KEPT(diagram), x, y);
}

uint8_t causal_is_admissible(const causal_diagram *diagram, uint64_t x, uint64_t y, uint64_t set) {
#if !AS_IT_IS
  L kept[DIAGRAM];
#endif
  READY
  return (uint8_t)causal_is_admissible_code(KEPT(diagram), x, y, set);
}
