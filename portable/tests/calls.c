/* Tests causal.c by itself: the heap that the code is given, and what becomes of what callers pass. The compiled library isn't
 * linked: its functions stand below, and note what they were given. It also tests what of portable.h no program shows everywhere. */
#include <stdio.h>

static size_t in_use, given;
static int is_refused;
static void *counted_malloc(size_t size);
static inline void *counted_realloc(void *old, size_t size);
static void counted_free(void *p);
#include <stdlib.h>
#define malloc counted_malloc
#define realloc counted_realloc
#define free counted_free
#include "../causal.c"
#undef malloc
#undef realloc
#undef free

#define HOLDS(fact) \
  do { \
    if (!(fact)) { \
      printf("calls: line %d: %s\n", __LINE__, #fact); \
      exit(1); \
    } \
  } while (0)

/* --- malloc, with a count of what is in use. Before each piece stand where it begins and its size, two words; so on platforms of 32
 * bits a piece is an odd multiple of 8, and every second time an even one. Behind it stand bytes that nobody may write to. */

typedef struct { void *whole; size_t size; } head;
static const unsigned char behind[24] = "nobody may write here..";

static void *counted_malloc(size_t size) {
  unsigned char *p, *whole;
  if (is_refused || size == 0 || size > 0x40000000u) return NULL; /* (for no bytes a C library may give NULL) */
  HOLDS(whole = malloc(size + 40 + sizeof behind));
  p = whole + ((0 - (uintptr_t)whole) & 15);
  if (sizeof(head) == 8 && given++ % 2) p += 8;
  ((head *)p)->whole = whole;
  ((head *)p)->size = size;
  in_use++;
  p = (unsigned char *)((head *)p + 1);
  memcpy(p + size, behind, sizeof behind);
  return p;
}

static void counted_free(void *p) {
  if (!p) return;
  in_use--;
  HOLDS(!memcmp((unsigned char *)p + ((head *)p - 1)->size, behind, sizeof behind));
  free(((head *)p - 1)->whole);
}

static inline void *counted_realloc(void *old, size_t size) {
  size_t kept = ((head *)old - 1)->size;
  void *p = counted_malloc(size);
  if (!p) return NULL;
  memcpy(p, old, kept < size ? kept : size);
  counted_free(old);
  return p;
}

/* --- the compiled library */

static L got[14];
static int begun;
static I status;
static L name_of_words, given_words[4], given_inputs[8];

#if BIG_ENDIAN_MEMORY
void causal_data_begin(void) { begun = 1; }
#define IS_READY begun
#else
#define IS_READY (begun + 1)
#endif

static void note(L words, L word_count, L inputs, L input_count, L sizes) {
  HOLDS(IS_READY);
  for (L i = 0; i < 2 * word_count; i++) given_words[i] = R8(words + 8 * i);
  for (L i = 0; i < 4 * input_count; i++) given_inputs[i] = R8(inputs + 8 * i);
  P8(sizes, 70001);
  P8(sizes + 8, 5);
}

/* A diagram's words, the first of each of its two graphs of 4 bytes: each number is another one. */
enum { OF_DIAGRAM = 390, OF_GRAPH = 193 };
static void hold_words(L d, L first) {
  for (L i = 0; i < OF_DIAGRAM; i++) HOLDS((i % OF_GRAPH || i > OF_GRAPH ? R8(d + 8 * i) : R4(d + 8 * i)) == first + i);
}

I causal_run_code(L b, L l, L words, L n, L inputs, L m, L out, L out_room, L err, L err_room, L sizes) {
  L all[] = {b, l, out, out_room, err, err_room};
  memcpy(got, all, sizeof all);
  note(words, n, inputs, m, sizes);
  return status;
}
I causal_ask_code(L d, L names, L size, L b, L l, L words, L n, L inputs, L m, L out, L out_room, L err, L err_room, L sizes) {
  hold_words(d, 1000);
  name_of_words = names + size;
  return causal_run_code(b, l, words, n, inputs, m, out, out_room, err, err_room, sizes);
}
I causal_inputs_code(L b, L l, L words, L n, L names, L room, L wanted) {
  HOLDS(IS_READY && b && l && names && room);
  for (L i = 0; i < 2 * n; i++) given_words[i] = R8(words + 8 * i);
  for (L i = 0; i < 3; i++) P8(wanted + 8 * i, 11 + i);
  P8(wanted + 24, (L)3 << 33);
  return status;
}
I causal_keep_code(L text, L l, L d, L names, L room, L size) {
  HOLDS(IS_READY && text && l && names && room);
  hold_words(d, 1000);
  for (L i = 0; i < OF_DIAGRAM; i++) {
    if (i % OF_GRAPH || i > OF_GRAPH) P8(d + 8 * i, 2000 + i);
    else P4(d + 8 * i, 2000 + i);
  }
  P8(size, 12);
  return status;
}
I causal_separated_code(L d, L x, L y, L given) {
  HOLDS(IS_READY);
  hold_words(d, 2000);
  return (I)(x + 2 * y + 4 * given);
}
I causal_is_identifiable_code(L d, L x, L y) {
  HOLDS(IS_READY);
  hold_words(d, 2000);
  return (I)(2 * x + y);
}
I causal_is_admissible_code(L d, L x, L y, L set) {
  HOLDS(IS_READY);
  hold_words(d, 2000);
  return (I)(3 * x + 2 * y + set);
}

/* --- the heap */

static L room[2];

static unsigned char *taken(L size, L align) {
  rattle_alloc(at(room), size, align);
  HOLDS(R8(at(room)) == 1);
  HOLDS(R8(at(room) + 8) % 16 == 0);
  return (unsigned char *)(uintptr_t)R8(at(room) + 8);
}

static void test_heap(void) {
  static const L sizes[] = {0, 1, 7, 8, 15, 16, 17, 24, 100, 4096, 70000};
  for (size_t i = 0; i < sizeof sizes / sizeof *sizes; i++) {
    for (size_t j = 0; j < sizeof sizes / sizeof *sizes; j++) {
      L size = sizes[i], again = sizes[j];
      unsigned char *p = taken(size, 16), *other = taken(24, 8);
      HOLDS(in_use == 2);
      memset(p, 7, (size_t)size);
      memset(other, 9, 24);
      rattle_realloc(at(room), at(p), size, again, 16);
      HOLDS(in_use == 2 && R8(at(room)) == 1 && R8(at(room) + 8) % 16 == 0);
      p = (unsigned char *)(uintptr_t)R8(at(room) + 8);
      for (L k = 0; k < size && k < again; k++) HOLDS(p[k] == 7);
      memset(p, 8, (size_t)again);
      for (L k = 0; k < 24; k++) HOLDS(other[k] == 9);
      rattle_dealloc(at(p));
      rattle_dealloc(at(other));
      HOLDS(in_use == 0);
    }
  }
}

static void test_refused(void) {
  unsigned char *p = taken(40, 8);
  is_refused = 1;
  rattle_alloc(at(room), 100, 8);
  HOLDS(R8(at(room)) == 0 && R8(at(room) + 8) != 0);
  rattle_realloc(at(room), at(p), 40, 100, 8);
  HOLDS(R8(at(room)) == 0 && R8(at(room) + 8) != 0 && in_use == 1);
  is_refused = 0;
  /* more than any address space of 32 bits has, which must not become a little */
  rattle_alloc(at(room), ((L)1 << 32) + 8, 8);
  HOLDS(R8(at(room)) == 0);
  rattle_alloc(at(room), ((L)1 << 32) - 8, 8);
  HOLDS(R8(at(room)) == 0);
  rattle_alloc(at(room), (L)1 << 31, 8);
  HOLDS(R8(at(room)) == 0);
  rattle_realloc(at(room), at(p), 40, ((L)1 << 32) + 8, 8);
  HOLDS(R8(at(room)) == 0 && in_use == 1);
  rattle_dealloc(at(p));
  HOLDS(in_use == 0);
}

/* --- the calls */

static const uint8_t bytes[] = "words and inputs";
static const causal_span spans[] = {{1, 2}, {3, 400}};
static const causal_input inputs[] = {{{5, 6}, {7, 8}}, {{9, 10}, {11, 12}}};
static uint8_t out[8], err[4];
static causal_sizes sizes;

static void is_passed(uint8_t ended) {
  static const L as_words[] = {1, 2, 3, 400}, as_inputs[] = {5, 6, 7, 8, 9, 10, 11, 12};
  HOLDS(ended == status && sizes.out == 70001 && sizes.err == 5 && in_use == 0);
  HOLDS(!memcmp(given_words, as_words, sizeof as_words) && !memcmp(given_inputs, as_inputs, sizeof as_inputs));
  HOLDS(got[0] == at(bytes) && got[1] == 16 && got[2] == at(out) && got[3] == 8 && got[4] == at(err) && got[5] == 4);
  begun = 0;
  memset(given_words, 0, sizeof given_words);
  memset(given_inputs, 0, sizeof given_inputs);
}

static void fill_graph(causal_graph *graph, uint64_t first) {
  graph->vertices = (uint32_t)first;
  for (uint64_t i = 0; i < 64; i++) {
    graph->parents[i] = first + 1 + i;
    graph->children[i] = first + 65 + i;
    graph->spouses[i] = first + 129 + i;
  }
}

/* A diagram whose words are numbers from `first` on. */
static causal_diagram filled(uint64_t first) {
  causal_diagram diagram;
  memset(&diagram, 0, sizeof diagram);
  fill_graph(&diagram.observed, first);
  fill_graph(&diagram.read, first + 193);
  diagram.exposures = first + 386;
  diagram.outcomes = first + 387;
  diagram.adjusted = first + 388;
  diagram.latent = first + 389;
  return diagram;
}

static void test_calls(void) {
  causal_diagram diagram = filled(1000), after = filled(2000);
  causal_wanted wanted;
  size_t size = 0;
  status = 5;
  is_passed(causal_run(bytes, 16, spans, 2, inputs, 2, out, 8, err, 4, &sizes));
  is_passed(causal_ask(&diagram, err, 4, bytes, 16, spans, 2, inputs, 2, out, 8, err, 4, &sizes));
  HOLDS(name_of_words == at(err) + 4);
  HOLDS(causal_inputs(bytes, 16, spans, 2, out, 8, &wanted) == 5 && given_words[3] == 400);
  HOLDS(wanted.count == 11 && wanted.file == 12 && wanted.second == 13 && wanted.most == (uint64_t)3 << 33 && in_use == 0);
  /* a diagram changes with the status of a yes alone; the library itself leaves it as it is */
  begun = 0;
  status = 0;
  HOLDS(causal_keep(bytes, 16, &diagram, out, 8, &size) == 0 && size == 12 && !memcmp(&diagram, &after, sizeof after));
  begun = 0;
  HOLDS(causal_separated(&diagram, 1, 2, 4) == 21);
  begun = 0;
  HOLDS(causal_is_identifiable(&diagram, 1, 2) == 4);
  begun = 0;
  HOLDS(causal_is_admissible(&diagram, 1, 2, 4) == 11);
#if !AS_IT_IS
  diagram = filled(1000);
  after = filled(1000);
  status = 3;
  begun = 0;
  HOLDS(causal_keep(bytes, 16, &diagram, out, 8, &size) == 3 && !memcmp(&diagram, &after, sizeof after));
  /* memory is refused for what is turned, or there is more of it than memory can hold */
  is_refused = 1;
  sizes.out = sizes.err = 3;
  HOLDS(causal_run(bytes, 16, spans, 2, inputs, 2, out, 8, err, 4, &sizes) == CAUSAL_NO_WORDS && sizes.out == 0 && sizes.err == 0);
  HOLDS(causal_inputs(bytes, 16, spans, 2, out, 8, &wanted) == CAUSAL_NO_WORDS);
  is_refused = 0;
  if (sizeof(size_t) == 4) {
    HOLDS(causal_run(bytes, 16, spans, 0x10000001u, inputs, 0, out, 8, err, 4, &sizes) == CAUSAL_NO_WORDS);
    HOLDS(causal_run(bytes, 16, spans, 0, inputs, 0x08000001u, out, 8, err, 4, &sizes) == CAUSAL_NO_WORDS);
  }
  HOLDS(in_use == 0);
#endif
}

/* --- what portable.h says of frames and copies */

static L frame_beside(int byte) {
  volatile char before = (char)byte;
  FRAME_OF(3);
  for (int i = 0; i < 3; i++) P8(FRAME + 8 * i, (L)byte);
  return FRAME % 16 + (L)(before - byte) + (R8(FRAME | 8) - (L)byte);
}

static void test_header(void) {
  static unsigned char text[700], copy[700];
  volatile char odd[9] = {0};
  for (int i = 0; i < 100; i++) HOLDS(frame_beside(i) + (L)odd[i % 9] == 0);
  for (int apart = 1; apart < 40; apart += 3) {
    for (int i = 0; i < 700; i++) text[i] = copy[i] = (unsigned char)(i * 7 + i / 256);
    move(at(text) + (L)apart, at(text), 600);
    for (int i = 0; i < 600; i++) HOLDS(text[i + apart] == copy[i]);
    move(at(text), at(copy) + (L)apart, 600);
    for (int i = 0; i < 600; i++) HOLDS(text[i] == copy[i + apart]);
  }
}

int main(void) {
  test_heap();
  test_refused();
  test_calls();
  test_header();
  puts("calls: all hold");
  return 0;
}
