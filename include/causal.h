/* Answers about causal diagrams, over inputs in memory: the proved call of `causal`.
 *
 *     const char bytes[] = "separateg--xA--yCdag{A<-B->C}";
 *     const causal_span words[] = {{0, 8}, {8, 9}, {9, 12}, {12, 13}, {13, 16}, {16, 17}};
 *     const causal_input inputs[] = {{{8, 9}, {17, 29}}};
 *     uint8_t out[256], err[256];
 *     causal_sizes sizes;
 *     uint8_t status = causal_run((const uint8_t *)bytes, 29, words, 6, inputs, 1,
 *                                 out, sizeof out, err, sizeof err, &sizes);
 *     // status is CAUSAL_NO, and out has sizes.out bytes: not separated: {A} from {C} given {} ..
 *
 * The C in portable/ compiles to these calls on any machine: causal.c and causal_code.c. `bindings/build` makes two libraries for
 * Linux on x86-64, libcausal.a and libcausal.so.
 */
#ifndef CAUSAL_H
#define CAUSAL_H

#include <stddef.h>
#include <stdint.h>

#ifdef __cplusplus
extern "C" {
#endif

/* The version, as the file VERSION of the repository has it. */
#define CAUSAL_VERSION "0.1.0"

/* A part of `bytes`: from `start` up to `end`. One that goes past the end has the bytes that are there, and one whose
 * `end` isn't behind its `start` is empty. */
typedef struct causal_span {
    size_t start, end;
} causal_span;

/* An input: where its name and its content stand. The first input of a name counts; later ones of that name are never
 * read. The name `-` is a name as any other. */
typedef struct causal_input {
    causal_span name, content;
} causal_input;

/* How many bytes a call wrote, as an answer and as a line. */
typedef struct causal_sizes {
    size_t out, err;
} causal_sizes;

/* What a call gives. 0 to 5 and 8 are those of the program `causal`, as docs/formats.md says, and so are the texts. With the word
 * `--json` the answer is an object; at 3 to 5 `out` has the object of the refusal then, beside the line in `err`. */
enum causal_status {
    CAUSAL_YES = 0,        /* the answer is yes; it is in `out` */
    CAUSAL_NO = 1,         /* the answer is no; it is in `out` */
    CAUSAL_WORDS = 2,      /* the words aren't understood; `err` has a line */
    CAUSAL_GRAPH = 3,      /* the graph or the target is refused; the line in `err` has the fault, and its place or name */
    CAUSAL_SECOND = 4,     /* the second input is refused, likewise */
    CAUSAL_NO_VALUE = 5,   /* the formula has no value over the counts; where a support is missing the line in `err` has the cell */
    CAUSAL_NO_INPUT = 6,   /* the words name an input that isn't there; `err` has a line */
    CAUSAL_CUT_SHORT = 7,  /* that of the program where a write fails; it doesn't come here */
    CAUSAL_NO_MEMORY = 8,  /* memory was refused before; `err` has a line */
    CAUSAL_NOT_TEXT = 9,   /* a word isn't UTF-8; nothing is written */
    CAUSAL_NO_WORDS = 10,  /* there is no memory for the words; nothing is written */
    CAUSAL_NOT_KEPT = 11   /* causal_ask alone: the diagram isn't kept with these names; nothing is written */
};

/* Runs the command that the words name over the inputs, and gives its status.
 *
 * bytes, length        what the spans are parts of
 * words, word_count    the words of the command, as the program `causal` takes them, without its own name
 * inputs, input_count  the inputs that the words may name
 * out, out_room        room for the answer, or with `--json` for the object of a refusal
 * err, err_room        room for the line
 * sizes                receives how many bytes the answer and the line have, whole
 *
 * Where the answer or the line has more bytes than its room, the room has the first of them: a call with more room gives
 * the rest. What stands behind the answer or the line in a room stays as it was; no zero byte is added. At CAUSAL_NOT_TEXT
 * and CAUSAL_NO_WORDS both sizes are 0.
 *
 * What the caller owes is what C asks of any call: each pointer leads to that many elements, aligned as their type is,
 * and may be null only where the count is 0; `sizes` isn't null; and `out`, `err` and `sizes` overlap neither each other
 * nor what is read, while `bytes`, `words` and `inputs` stay unchanged during the call. Spans may be any numbers, and may
 * overlap. Nothing else is asked.
 *
 * The call keeps nothing and shares nothing: threads may call it at once, each with rooms of its own. It allocates with
 * `malloc` and `realloc`, and frees all that it took before it returns. It reads no file and no environment, and writes to
 * no stream. */
uint8_t causal_run(const uint8_t *bytes, size_t length,
                   const causal_span *words, size_t word_count,
                   const causal_input *inputs, size_t input_count,
                   uint8_t *out, size_t out_room,
                   uint8_t *err, size_t err_room,
                   causal_sizes *sizes);

/* The inputs that words may ask for: how many (0, 1 or 2), how many bytes the name of each has, and the most bytes of the second
 * that an answer reads (of the first, the graph's text, they are 1,048,576): of a longer one it doesn't matter which they are. */
typedef struct causal_wanted {
    size_t count, file, second;
    uint64_t most;
} causal_wanted;

/* Tells which inputs the words may ask for: whoever holds the inputs elsewhere, as in files, reads these and no others. causal_run
 * asks for the second one only where the answer on the file goes on with it: with the file alone its status is CAUSAL_NO_INPUT then.
 *
 * names, names_room    receives the name of the file and behind it that of the second input, or the first bytes of both: a room of as
 *                      many bytes as the words have is enough
 *
 * CAUSAL_WORDS where the words aren't understood (causal_run gives the line); CAUSAL_NO_MEMORY, CAUSAL_NOT_TEXT and CAUSAL_NO_WORDS
 * as for causal_run. Unless it is CAUSAL_YES, nothing is written to `names`, and `wanted` is all 0. */
uint8_t causal_inputs(const uint8_t *bytes, size_t length,
                      const causal_span *words, size_t word_count,
                      uint8_t *names, size_t names_room,
                      causal_wanted *wanted);

/* A graph of at most 64 vertices, which are numbered from 0. Row v of `parents`, `children` and `spouses` has bit u set where
 * u -> v, v -> u and u <-> v. */
typedef struct causal_graph {
    uint32_t vertices;
    uint64_t parents[64], children[64], spouses[64];
} causal_graph;

/* A diagram that was read, in memory of the caller: as it was read, its vertices numbered in the order in which `graph FILE` prints
 * them, with the sets of those that are marked; and its observed graph, after hidden vertices are projected away, numbered in the
 * order in which `graph FILE --project` prints them. Bit v of a set is set where vertex v of `read` is marked so.
 *
 * All zeros are the diagram without a vertex: begin with `causal_diagram diagram = {0};`. Only causal_keep may change one. */
typedef struct causal_diagram {
    causal_graph observed, read;
    uint64_t exposures, outcomes, adjusted, latent;
} causal_diagram;

/* Reads a graph text, and keeps its diagram in `diagram`. `names` receives the names of its vertices in order, each with a line feed
 * behind it (no name has one in it), and `names_size` how many bytes these are: a room of as many bytes as the text has is enough.
 * Where they have more bytes than the room, the room has the first of them. A caller who asks no more than causal_separated,
 * causal_is_identifiable and causal_is_admissible needs no names: `names` may be null, with no room.
 *
 * CAUSAL_GRAPH where the bytes are no graph text, over 1,048,576 bytes included (causal_run tells the fault); CAUSAL_NO_MEMORY where
 * memory was refused. Then `diagram` and `names` stay as they were, and `names_size` is 0. */
uint8_t causal_keep(const uint8_t *text, size_t length, causal_diagram *diagram,
                    uint8_t *names, size_t names_room, size_t *names_size);

/* Whether x and y are separated given a set, in the observed graph of a diagram that was kept: CAUSAL_YES where no walk between them
 * is open, CAUSAL_NO where one is. Bit v of a set is set where vertex v of the observed graph is a member. CAUSAL_GRAPH where that
 * can't be asked: a set has a member that isn't a vertex, two have a common one, or x or y has none. It takes no memory. */
uint8_t causal_separated(const causal_diagram *diagram, uint64_t x, uint64_t y, uint64_t given);

/* Whether the effect of x on y has a formula without interventions, in the observed graph of a diagram that was kept: CAUSAL_YES where
 * one equals it in every positive finite model of that graph, CAUSAL_NO where two such models agree on all observations and differ on
 * it. Sets as in causal_separated. CAUSAL_GRAPH where that can't be asked: a set has a member that isn't a vertex, the two have a
 * common one, or y has none. It takes no memory, so it always answers; causal_ask with the words of `identify` shows why. */
uint8_t causal_is_identifiable(const causal_diagram *diagram, uint64_t x, uint64_t y);

/* Whether a set is admissible for the effect of x on y, in the observed graph of a diagram that was kept: CAUSAL_YES where it is, and its
 * adjustment formula equals the effect in every positive finite model of that graph; CAUSAL_NO where in some such model it doesn't.
 * Sets, and CAUSAL_GRAPH, as in causal_separated. It takes no memory, so it always answers; causal_ask with the words of
 * `adjust --set` shows why. */
uint8_t causal_is_admissible(const causal_diagram *diagram, uint64_t x, uint64_t y, uint64_t set);

/* Runs the command that the words name on a diagram that was kept: the arguments behind `names_size` are those of causal_run, and what
 * is answered is what the command answers on the text that was kept, with the same statuses and texts.
 *
 * names, names_size    the names that causal_keep wrote, all of them
 *
 * The diagram stands for the file of the command, whatever the words call it; another input of that name isn't it. A second input, as
 * the certificate of `check`, is found among the inputs. CAUSAL_NOT_KEPT says that the diagram isn't kept
 * with these names; nothing is written then, and both sizes are 0. */
uint8_t causal_ask(const causal_diagram *diagram, const uint8_t *names, size_t names_size,
                   const uint8_t *bytes, size_t length,
                   const causal_span *words, size_t word_count,
                   const causal_input *inputs, size_t input_count,
                   uint8_t *out, size_t out_room,
                   uint8_t *err, size_t err_room,
                   causal_sizes *sizes);

#ifdef __cplusplus
}
#endif

#endif
