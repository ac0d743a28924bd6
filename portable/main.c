/* causal: the program over the calls of causal.h.
 *
 * It asks which inputs the words may ask for, reads the file, and runs the words; where the answer goes on with the second input, it
 * reads that too and runs them again. An input that is named twice is read once. An input that can't be read is left out: the call
 * itself says then that a read failed. */
#include <errno.h>
#include <signal.h>
#include <stdio.h>
#include <stdlib.h>
#include <string.h>

#include "causal.h"
#include "usage.h"

#ifdef _WIN32
#include <fcntl.h>
#include <io.h>
#include <windows.h>
#include <shellapi.h>
#endif

enum { MOST_OF_FILE = 1048576, WRITE_FAILED = 7, NO_MEMORY = 8 };

/* What a call is given, in one run of bytes: the words, the names of inputs, and what the inputs hold. */
typedef struct question {
  char **arguments;
  uint8_t *bytes;
  size_t length, room, word_count, input_count;
  causal_span *words;
  causal_input inputs[2];
} question;

/* What a call gives. */
typedef struct answer {
  uint8_t *out, *err;
  size_t out_room, err_room;
  causal_sizes sizes;
} answer;

static int no_memory(void) {
  fputs("causal: no memory\n", stderr);
  return NO_MEMORY;
}

/* Whether there is memory for so many further bytes. */
static int has_room(question *q, size_t more) {
  if (more <= q->room - q->length) return 1;
  size_t room = q->room > 1 << 16 ? q->room : 1 << 16;
  while (room - q->length < more) {
    if (room > (size_t)-1 / 2) return 0;
    room *= 2;
  }
  uint8_t *bytes = realloc(q->bytes, room);
  if (!bytes) return 0;
  q->bytes = bytes;
  q->room = room;
  return 1;
}

/* Takes the words; 0 where memory is refused. */
static int begin(question *q, char **arguments, size_t count) {
  memset(q, 0, sizeof *q);
  q->arguments = arguments;
  q->word_count = count;
  q->words = malloc((count + 1) * sizeof *q->words);
  if (!q->words) return 0;
  for (size_t i = 0; i < count; i++) {
    size_t size = strlen(arguments[i]);
    if (!has_room(q, size)) return 0;
    if (size) memcpy(q->bytes + q->length, arguments[i], size);
    q->words[i].start = q->length;
    q->words[i].end = q->length += size;
  }
  return 1;
}

/* --- reading */

#ifdef _WIN32
static FILE *open_named(const char *name) {
  static wchar_t wide[32768];
  return MultiByteToWideChar(CP_UTF8, MB_ERR_INVALID_CHARS, name, -1, wide, 32768) ? _wfopen(wide, L"rb") : NULL;
}
#else
static FILE *open_named(const char *name) { return fopen(name, "rb"); }
#endif

/* The word that an input's name is; the call names no others. */
static const char *word_of(const question *q, causal_span name) {
  size_t size = name.end - name.start;
  for (size_t i = 0; i < q->word_count; i++)
    if (q->words[i].end - q->words[i].start == size && !memcmp(q->bytes + q->words[i].start, q->bytes + name.start, size))
      return q->arguments[i];
  return NULL;
}

/* Reads a file, and no more of it than one byte over `most`; 0 where that fails, -1 where memory is refused. */
static int read_open(question *q, FILE *file, uint64_t most) {
  for (uint64_t left = most + 1; left > 0;) {
    if (!has_room(q, 1)) return -1;
    size_t room = q->room - q->length, wanted = left < room ? (size_t)left : room;
    size_t size = fread(q->bytes + q->length, 1, wanted, file);
    q->length += size;
    left -= size;
    if (size < wanted) break;
  }
  return !ferror(file);
}

/* Reads the input of a name; 0 where that fails, -1 where memory is refused. */
static int read_input(question *q, causal_span name, uint64_t most) {
  const char *word = word_of(q, name);
  errno = 0;
  FILE *file = !word ? NULL : strcmp(word, "-") ? open_named(word) : stdin;
  if (!file) return errno == ENOMEM ? -1 : 0;
  setvbuf(file, NULL, _IONBF, 0);
  size_t start = q->length;
  int end = read_open(q, file, most);
  if (file != stdin) fclose(file);
  if (end > 0) q->inputs[q->input_count++] = (causal_input){name, {start, q->length}};
  return end;
}

/* --- answering */

/* Runs the words over the inputs that are there; -1 where memory is refused. */
static int run(const question *q, answer *a) {
  for (;;) {
    if (!a->out) a->out = malloc(a->out_room);
    if (!a->err) a->err = malloc(a->err_room);
    if (!a->out || !a->err) return -1;
    int status = causal_run(q->bytes, q->length, q->words, q->word_count, q->inputs, q->input_count, a->out, a->out_room,
                            a->err, a->err_room, &a->sizes);
    if (status == CAUSAL_CUT_SHORT || status == CAUSAL_NO_WORDS) return -1;
    if (a->sizes.out <= a->out_room && a->sizes.err <= a->err_room) return status;
    if (a->sizes.out > a->out_room) {
      free(a->out);
      a->out = NULL;
      a->out_room = a->sizes.out;
    }
    if (a->sizes.err > a->err_room) {
      free(a->err);
      a->err = NULL;
      a->err_room = a->sizes.err;
    }
  }
}

/* Runs the words over what the inputs hold, each of which is read once it is asked for; -1 where memory is refused. */
static int run_over_files(question *q, answer *a) {
  causal_wanted wanted;
  size_t names = q->length;
  if (!has_room(q, names + 1)) return -1;
  int status = causal_inputs(q->bytes, names, q->words, q->word_count, q->bytes + names, names, &wanted);
  if (status == CAUSAL_NO_MEMORY || status == CAUSAL_NO_WORDS) return -1;
  if (status != CAUSAL_YES || wanted.count == 0) return run(q, a);
  q->length += wanted.file + wanted.second;
  causal_span file = {names, names + wanted.file}, second = {file.end, file.end + wanted.second};
  int is_read = read_input(q, file, MOST_OF_FILE);
  if (is_read < 0) return -1;
  status = run(q, a);
  if (status != CAUSAL_NO_INPUT || !is_read || wanted.count == 1) return status;
  is_read = read_input(q, second, wanted.most);
  return is_read < 0 ? -1 : is_read ? run(q, a) : status;
}

/* Writes to standard output; the status where that fails. */
static int write_out(const void *text, size_t size, int status) {
  if (size == 0 || (fwrite(text, 1, size, stdout) == size && !fflush(stdout))) return status;
  fputs("causal: write failed\n", stderr);
  return WRITE_FAILED;
}

static int answer_words(char **words, size_t count) {
  question q;
  answer a = {NULL, NULL, 1 << 20, 1 << 16, {0, 0}};
  int status = begin(&q, words, count) ? run_over_files(&q, &a) : -1;
  if (status < 0) {
    status = no_memory();
  } else if (status == CAUSAL_NOT_TEXT) {
    status = CAUSAL_WORDS;
  } else {
    status = write_out(a.out, a.sizes.out, status);
    fwrite(a.err, 1, a.sizes.err, stderr);
  }
  free(q.bytes);
  free(q.words);
  free(a.out);
  free(a.err);
  return status;
}

#ifdef _WIN32
/* The words in UTF-8; NULL where memory is refused. */
static char **words_in_utf8(int *count) {
  wchar_t **wide = CommandLineToArgvW(GetCommandLineW(), count);
  char **words = wide ? malloc(((size_t)*count + 1) * sizeof *words) : NULL;
  for (int i = 0; words && i < *count; i++) {
    int size = WideCharToMultiByte(CP_UTF8, 0, wide[i], -1, NULL, 0, NULL, NULL);
    if (!(words[i] = malloc((size_t)size + 1))) return NULL;
    WideCharToMultiByte(CP_UTF8, 0, wide[i], -1, words[i], size, NULL, NULL);
  }
  return words;
}
#endif

int main(int count, char **words) {
#ifdef SIGPIPE
  signal(SIGPIPE, SIG_IGN);
#endif
#ifdef _WIN32
  if (!(words = words_in_utf8(&count))) return no_memory();
  _setmode(0, _O_BINARY);
  _setmode(1, _O_BINARY);
  _setmode(2, _O_BINARY);
#endif
  static const char version[] = "causal " CAUSAL_VERSION "\n";
  if (count > 1 && !strcmp(words[1], "--help")) return write_out(usage, sizeof usage - 1, 0);
  if (count > 1 && !strcmp(words[1], "--version")) return write_out(version, sizeof version - 1, 0);
  return answer_words(words + (count > 0), (size_t)(count > 0 ? count - 1 : 0));
}
