/* Tests of main.c what no words show that Linux gives a program: longer ones, of which other systems have some. The library isn't
 * linked: its calls stand below. */
#define main program
#include "../main.c"
#undef main

#define HOLDS(fact) \
  do { \
    if (!(fact)) { \
      printf("program: line %d: %s\n", __LINE__, #fact); \
      exit(1); \
    } \
  } while (0)

uint8_t causal_run(const uint8_t *bytes, size_t length, const causal_span *words, size_t word_count,
                   const causal_input *inputs, size_t input_count, uint8_t *out, size_t out_room,
                   uint8_t *err, size_t err_room, causal_sizes *sizes) {
  (void)bytes, (void)length, (void)words, (void)word_count, (void)inputs, (void)input_count, (void)out, (void)out_room, (void)err, (void)err_room;
  sizes->out = sizes->err = 0;
  return CAUSAL_YES;
}

uint8_t causal_inputs(const uint8_t *bytes, size_t length, const causal_span *words, size_t word_count,
                      uint8_t *names, size_t names_room, causal_wanted *wanted) {
  (void)bytes, (void)length, (void)words, (void)word_count, (void)names, (void)names_room;
  memset(wanted, 0, sizeof *wanted);
  return CAUSAL_WORDS;
}

/* Each word stands where its span says. */
static void test_words(char **words, size_t count) {
  question q;
  HOLDS(begin(&q, words, count));
  size_t at = 0;
  for (size_t i = 0; i < count; i++) {
    HOLDS(q.words[i].start == at && q.words[i].end == at + strlen(words[i]));
    HOLDS(at == q.words[i].end || !memcmp(q.bytes + at, words[i], strlen(words[i])));
    at = q.words[i].end;
  }
  HOLDS(q.length == at && q.length <= q.room);
  HOLDS(has_room(&q, q.length + 1) && q.room - q.length > q.length);
  HOLDS(!has_room(&q, (size_t)-1 - q.length));
  free(q.bytes);
  free(q.words);
}

static char *word_of_size(size_t size) {
  char *word = malloc(size + 1);
  HOLDS(word);
  for (size_t i = 0; i < size; i++) word[i] = (char)('a' + i % 26);
  word[size] = 0;
  return word;
}

int main(void) {
  static const size_t sizes[] = {0, 1, 255, 65535, 65536, 65537, 131072, 131073, 300000, 700000};
  enum { COUNT = sizeof sizes / sizeof *sizes };
  char *words[COUNT];
  for (size_t i = 0; i < COUNT; i++) words[i] = word_of_size(sizes[i]);
  for (size_t i = 0; i < COUNT; i++) {
    test_words(words + i, 1);
    test_words(words + i, COUNT - i);
    test_words(words, i);
  }
  for (size_t i = 0; i < COUNT; i++) free(words[i]);
  puts("program: all hold");
  return 0;
}
