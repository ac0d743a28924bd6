/* Calls from R into the library: words and named inputs in, the status, the answer and the line out; and a diagram that is kept. */
#include <string.h>
#include <R.h>
#include <Rinternals.h>
#include <R_ext/Rdynload.h>
#include "causal.h"

enum { FIRST_ROOM = 1 << 14, LAST_STATUS = 8 };

/* Copies `length` bytes behind what `packed` holds, and says where they stand. */
static causal_span put(uint8_t *packed, size_t *used, const void *from, size_t length) {
  causal_span span = {*used, *used + length};
  if (length > 0) memcpy(packed + *used, from, length);
  *used += length;
  return span;
}

static SEXP raw_of(const uint8_t *bytes, size_t length) {
  SEXP raw = allocVector(RAWSXP, (R_xlen_t)length);
  if (length > 0) memcpy(RAW(raw), bytes, length);
  return raw;
}

static const causal_diagram *diagram_in(SEXP kept) { return (const causal_diagram *)RAW(VECTOR_ELT(kept, 0)); }

/* words and names: character vectors in UTF-8; contents: a list of raw vectors; kept: what call_keep gave, which stands for the file, or
 * NULL. */
static SEXP call_causal(SEXP words, SEXP names, SEXP contents, SEXP kept) {
  size_t word_count = (size_t)XLENGTH(words), input_count = (size_t)XLENGTH(names);
  size_t total = 1, used = 0;
  for (size_t i = 0; i < word_count; i++) total += strlen(CHAR(STRING_ELT(words, i)));
  for (size_t i = 0; i < input_count; i++)
    total += strlen(CHAR(STRING_ELT(names, i))) + (size_t)XLENGTH(VECTOR_ELT(contents, i));

  uint8_t *packed = (uint8_t *)R_alloc(total, 1);
  causal_span *spans = (causal_span *)R_alloc(word_count + 1, sizeof *spans);
  causal_input *inputs = (causal_input *)R_alloc(input_count + 1, sizeof *inputs);
  for (size_t i = 0; i < word_count; i++) {
    const char *word = CHAR(STRING_ELT(words, i));
    spans[i] = put(packed, &used, word, strlen(word));
  }
  for (size_t i = 0; i < input_count; i++) {
    const char *name = CHAR(STRING_ELT(names, i));
    SEXP content = VECTOR_ELT(contents, i);
    inputs[i].name = put(packed, &used, name, strlen(name));
    inputs[i].content = put(packed, &used, RAW(content), (size_t)XLENGTH(content));
  }

  causal_sizes sizes = {0, 0};
  size_t room = FIRST_ROOM;
  uint8_t *out, *err;
  int status;
  for (;;) {
    out = (uint8_t *)R_alloc(room, 1);
    err = (uint8_t *)R_alloc(room, 1);
    if (isNull(kept)) {
      status = causal_run(packed, used, spans, word_count, inputs, input_count, out, room, err, room, &sizes);
    } else {
      SEXP lines = VECTOR_ELT(kept, 1);
      status = causal_ask(diagram_in(kept), RAW(lines), (size_t)XLENGTH(lines), packed, used, spans, word_count, inputs, input_count, out,
                          room, err, room, &sizes);
    }
    size_t longest = sizes.out > sizes.err ? sizes.out : sizes.err;
    if (status > LAST_STATUS || longest <= room) break;
    room = longest;
  }
  if (status > LAST_STATUS) sizes.out = sizes.err = 0;

  SEXP answer = PROTECT(allocVector(VECSXP, 3));
  SET_VECTOR_ELT(answer, 0, ScalarInteger(status));
  SET_VECTOR_ELT(answer, 1, raw_of(out, sizes.out));
  SET_VECTOR_ELT(answer, 2, raw_of(err, sizes.err));
  UNPROTECT(1);
  return answer;
}

/* text: a raw vector. What the library keeps of it, as a list of two raw vectors, the diagram and its names, or the status where it keeps
 * none. */
static SEXP call_keep(SEXP text) {
  size_t room = (size_t)XLENGTH(text), size = 0;
  uint8_t *lines = (uint8_t *)R_alloc(room + 1, 1);
  SEXP diagram = PROTECT(allocVector(RAWSXP, (R_xlen_t)sizeof(causal_diagram)));
  memset(RAW(diagram), 0, sizeof(causal_diagram));
  int status = causal_keep(RAW(text), room, (causal_diagram *)RAW(diagram), lines, room, &size);
  if (status != CAUSAL_YES || size > room) {
    UNPROTECT(1);
    return ScalarInteger(status == CAUSAL_YES ? CAUSAL_NOT_KEPT : status);
  }
  SEXP kept = PROTECT(allocVector(VECSXP, 2));
  SET_VECTOR_ELT(kept, 0, diagram);
  SET_VECTOR_ELT(kept, 1, raw_of(lines, size));
  UNPROTECT(2);
  return kept;
}

/* The set of some vertices, counted from 1. */
static uint64_t set_of(SEXP places) {
  uint64_t set = 0;
  for (R_xlen_t i = 0; i < XLENGTH(places); i++) set |= (uint64_t)1 << ((INTEGER(places)[i] - 1) & 63);
  return set;
}

/* kept: what call_keep gave; x, y, given: integer vectors of vertices. The status of the library. */
static SEXP call_separated(SEXP kept, SEXP x, SEXP y, SEXP given) {
  return ScalarInteger(causal_separated(diagram_in(kept), set_of(x), set_of(y), set_of(given)));
}

/* kept: what call_keep gave; x, y: integer vectors of vertices. The status of the library. */
static SEXP call_identifiable(SEXP kept, SEXP x, SEXP y) {
  return ScalarInteger(causal_is_identifiable(diagram_in(kept), set_of(x), set_of(y)));
}

/* kept: what call_keep gave; x, y, set: integer vectors of vertices. The status of the library. */
static SEXP call_admissible(SEXP kept, SEXP x, SEXP y, SEXP set) {
  return ScalarInteger(causal_is_admissible(diagram_in(kept), set_of(x), set_of(y), set_of(set)));
}

static const R_CallMethodDef calls[] = {{"call_causal", (DL_FUNC)&call_causal, 4},
                                        {"call_keep", (DL_FUNC)&call_keep, 1},
                                        {"call_separated", (DL_FUNC)&call_separated, 4},
                                        {"call_identifiable", (DL_FUNC)&call_identifiable, 3},
                                        {"call_admissible", (DL_FUNC)&call_admissible, 4},
                                        {NULL, NULL, 0}};

void R_init_causal(DllInfo *dll) {
  R_registerRoutines(dll, NULL, calls, NULL, NULL);
  R_useDynamicSymbols(dll, FALSE);
  R_forceSymbols(dll, TRUE);
}
