/* Behind portable.h, before the code that is run side by side (side_by_side.py): frames lie in the memory, and so does the data;
 * and each function notes its calls in a sum. BASE_AT and so on are given to the compiler. */
#undef FRAME_OF
#undef FRAME
#undef D
#define FRAME_OF(n) L frame_at = (stack -= 8 * (n)); (void)frame_at
#define FRAME frame_at
#define D(x) (BASE_AT + (x))

extern L stack, sum, log_at;

static void mix(L x) { sum = (sum ^ x) * FACTOR; }

/* Notes the sum at the beginning or the end of a function, where this is asked for. */
static void note(L what) {
  if (log_at >= LOG_END) return;
  P8(log_at, what);
  P8(log_at + 8, sum);
  log_at += 16;
}
