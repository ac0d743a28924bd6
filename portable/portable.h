/* What the C of the compiled library uses: types, memory, frames, the data, and the operations that C doesn't have.
 *
 * An address is a number of 64 bits on every platform. What lies in memory has its least byte first on every platform, so that the
 * code sees the same bytes everywhere; causal.c turns what callers pass.
 *
 * Assumed of the compiler: an `int` of 32 bits; conversions to signed types that keep the bits, and an arithmetic `>>` of signed
 * numbers (gcc, clang, MSVC and tcc say so); doubles of IEEE 754, without -ffast-math. A compiler that isn't a GNU one needs an
 * option against optimizations by type of access, if it has such. */
#ifndef PORTABLE_H
#define PORTABLE_H

#include <float.h>
#include <stddef.h>
#include <stdint.h>
#include <stdlib.h>
#include <string.h>

/* --- the compiler */

#if defined(__BYTE_ORDER__) && __BYTE_ORDER__ == __ORDER_BIG_ENDIAN__
#define BIG_ENDIAN_MEMORY 1
#else
#define BIG_ENDIAN_MEMORY 0
#endif

#if defined(__GNUC__) && !defined(__TINYC__)
#define GNU_BUILTINS 1
#else
#define GNU_BUILTINS 0
#endif

#if defined(__x86_64__) && defined(__SSE2__) && GNU_BUILTINS && !defined(WITHOUT_SSE2)
#define SSE2_VECTORS 1
#include <emmintrin.h>
#else
#define SSE2_VECTORS 0
#endif

#ifdef __GNUC__
#define ODD __attribute__((packed, may_alias))
#define NO_RETURN __attribute__((noreturn))
#define ALIGNED __attribute__((aligned(16), unused))
#define INLINE static inline __attribute__((unused))
#ifdef _WIN32
#define HIDDEN
#else
#define HIDDEN __attribute__((visibility("hidden")))
#endif
#elif defined(_MSC_VER)
#define ODD
#define NO_RETURN
#define ALIGNED __declspec(align(16))
#define INLINE static __inline
#define HIDDEN
#else
#define ODD
#define NO_RETURN
#define ALIGNED _Alignas(16)
#define INLINE static inline
#define HIDDEN
#endif

/* --- a part of the code: with -DPART=n only the n-th of its parts is compiled, and its functions are seen from the other parts */

#ifdef PART
#define IS_IN(part) (PART == (part))
#define PRIVATE HIDDEN
#else
#define IS_IN(part) 1
#define PRIVATE static
#endif

/* --- the types: numbers of 32 and 64 bits, the same signed, and doubles; vectors are below */

typedef uint32_t I;
typedef uint64_t L;
typedef int32_t SI;
typedef int64_t SL;
typedef int8_t S1_;
typedef int16_t S2_;
typedef int32_t S4_;
typedef double W;

/* --- memory at any address, whatever its type was */

#if defined(_MSC_VER)
#pragma pack(push, 1)
#endif
typedef struct ODD { uint8_t v; } M1;
typedef struct ODD { uint16_t v; } M2;
typedef struct ODD { uint32_t v; } M4;
typedef struct ODD { uint64_t v; } M8;
#if defined(_MSC_VER)
#pragma pack(pop)
#endif
#define AT(M, a) (((M *)(uintptr_t)(a))->v)

#if BIG_ENDIAN_MEMORY
#define E2(x) __builtin_bswap16(x)
#define E4(x) __builtin_bswap32(x)
#define E8(x) __builtin_bswap64(x)
#else
#define E2(x) (x)
#define E4(x) (x)
#define E8(x) (x)
#endif

/* Reads of 1 to 8 bytes: R into 32 bits (R8 into 64), Z into 64 bits; S and X the same with the sign. Writes: P. */
#define R1(a) ((I)AT(M1, a))
#define R2(a) ((I)E2(AT(M2, a)))
#define R4(a) ((I)E4(AT(M4, a)))
#define R8(a) ((L)E8(AT(M8, a)))
#define S1(a) ((I)(SI)(int8_t)AT(M1, a))
#define S2(a) ((I)(SI)(int16_t)E2(AT(M2, a)))
#define Z1(a) ((L)AT(M1, a))
#define Z2(a) ((L)E2(AT(M2, a)))
#define Z4(a) ((L)E4(AT(M4, a)))
#define X1(a) ((L)(SL)(int8_t)AT(M1, a))
#define X2(a) ((L)(SL)(int16_t)E2(AT(M2, a)))
#define X4(a) ((L)(SL)(int32_t)E4(AT(M4, a)))
#define P1(a, x) (AT(M1, a) = (uint8_t)(x))
#define P2(a, x) (AT(M2, a) = E2((uint16_t)(x)))
#define P4(a, x) (AT(M4, a) = E4((uint32_t)(x)))
#define P8(a, x) (AT(M8, a) = E8((uint64_t)(x)))
#define RW(a) double_of(R8(a))
#define PW(a, x) P8(a, bits_of(x))

/* Where gcc for x86 knows a size over 32 it writes string instructions, which take longer than a call of the library: it isn't told. */
#if GNU_BUILTINS && !defined(__clang__) && (defined(__x86_64__) || defined(__i386__))
#define HIDE(size) if (__builtin_constant_p(size) && size > 32) __asm__("" : "+r"(size))
#else
#define HIDE(size) (void)0
#endif

INLINE void move(L to, L from, L size) {
  HIDE(size);
  if (size) memmove((void *)(uintptr_t)to, (const void *)(uintptr_t)from, (size_t)size);
}
INLINE void fill(L to, I byte, L size) {
  HIDE(size);
  if (size) memset((void *)(uintptr_t)to, (int)(byte & 255), (size_t)size);
}

/* --- a function's frame: so many words at a multiple of 16, on which the code builds (it makes addresses with `|`) */

#define FRAME_OF(n) ALIGNED L frame[n]
#define FRAME ((L)(uintptr_t)frame)

/* --- the data: words N, and addresses A in it; a place in it is D. It begins at a multiple of 16. */

#define D(x) ((L)(uintptr_t)causal_data + (x))
#if BIG_ENDIAN_MEMORY
void causal_data_begin(void);
#endif
#ifdef WORDS
#if BIG_ENDIAN_MEMORY
/* An address can't be turned before the program runs: the first calls do it, each the same. */
typedef struct { L number; I place; } word_made;
HIDDEN extern L causal_data[WORDS];
#define N(x) {x, 0}
#define A(x) {0, (x) + 1}
#define DATA static const word_made made[WORDS]
#define DATA_END \
  ALIGNED L causal_data[WORDS]; \
  HIDDEN void causal_data_begin(void) { \
    static int done; \
    if (__atomic_load_n(&done, __ATOMIC_ACQUIRE)) return; \
    for (int i = 0; i < WORDS; i++) P8(D(8 * i), made[i].place ? D(made[i].place - 1) : made[i].number); \
    __atomic_store_n(&done, 1, __ATOMIC_RELEASE); \
  }
#else
#if UINTPTR_MAX == 0xffffffffu
typedef union { struct { I low, high; } n; struct { const unsigned char *p; I high; } a; } word_made;
#define N(x) {{(I)((x) & 0xffffffffu), (I)((uint64_t)(x) >> 32)}}
#define A(x) {.a = {(const unsigned char *)causal_data + (x), 0}}
#else
typedef union { L n; const unsigned char *p; } word_made;
#define N(x) {x}
#define A(x) {.p = (const unsigned char *)causal_data + (x)}
#endif
HIDDEN extern const word_made causal_data[WORDS];
#define DATA ALIGNED const word_made causal_data[WORDS]
#define DATA_END
#endif
#endif

/* --- what the code calls, in causal.c; the names that a linker sees */

#define trap causal_trap
#define rattle_alloc causal_alloc
#define rattle_realloc causal_realloc
#define rattle_dealloc causal_dealloc

/* Where the code says that it never comes to: the proof says that it doesn't. */
HIDDEN NO_RETURN void trap(void);

/* The heap: whether there is memory, and where, written to `to`. */
HIDDEN void rattle_alloc(L to, L size, L align);
HIDDEN void rattle_realloc(L to, L old, L kept, L size, L align);
HIDDEN void rattle_dealloc(L old);

/* --- integers */

INLINE I rotl32(I x, I n) { return x << (n & 31) | x >> (-n & 31); }
INLINE L rotl64(L x, L n) { return x << (n & 63) | x >> (-n & 63); }
INLINE I rotr32(I x, I n) { return x >> (n & 31) | x << (-n & 31); }
INLINE L rotr64(L x, L n) { return x >> (n & 63) | x << (-n & 63); }
#define sar32(x, n) ((I)((SI)(x) >> (n)))
#define sar64(x, n) ((L)((SL)(x) >> (n)))

/* Division by zero traps, and so does the one quotient of signed numbers that doesn't fit; its remainder is 0. */
INLINE I divu32(I a, I b) { if (!b) trap(); return a / b; }
INLINE L divu64(L a, L b) { if (!b) trap(); return a / b; }
INLINE I remu32(I a, I b) { if (!b) trap(); return a % b; }
INLINE L remu64(L a, L b) { if (!b) trap(); return a % b; }
INLINE I divs32(I a, I b) { if (!b || (a == 0x80000000u && b == 0xffffffffu)) trap(); return (I)((SI)a / (SI)b); }
INLINE L divs64(L a, L b) { if (!b || (a == (L)1 << 63 && b == ~(L)0)) trap(); return (L)((SL)a / (SL)b); }
INLINE I rems32(I a, I b) { if (!b) trap(); return b == 0xffffffffu ? 0 : (I)((SI)a % (SI)b); }
INLINE L rems64(L a, L b) { if (!b) trap(); return b == ~(L)0 ? 0 : (L)((SL)a % (SL)b); }

/* The zeros before the first one, those behind the last one, and the ones. Of 0 the first two are all the bits. */
#if GNU_BUILTINS
INLINE I clz32(I x) { return x ? (I)__builtin_clz(x) : 32; }
INLINE I ctz32(I x) { return x ? (I)__builtin_ctz(x) : 32; }
INLINE L clz64(L x) { return x ? (L)__builtin_clzll(x) : 64; }
INLINE L ctz64(L x) { return x ? (L)__builtin_ctzll(x) : 64; }
INLINE I popcnt32(I x) { return (I)__builtin_popcount(x); }
INLINE L popcnt64(L x) { return (L)__builtin_popcountll(x); }
#else
INLINE L popcnt64(L x) {
  x -= x >> 1 & 0x5555555555555555u;
  x = (x & 0x3333333333333333u) + (x >> 2 & 0x3333333333333333u);
  return ((x + (x >> 4)) & 0x0f0f0f0f0f0f0f0fu) * 0x0101010101010101u >> 56;
}
INLINE L ctz64(L x) { return popcnt64(~x & (x - 1)); }
INLINE L clz64(L x) {
  x |= x >> 1, x |= x >> 2, x |= x >> 4, x |= x >> 8, x |= x >> 16, x |= x >> 32;
  return 64 - popcnt64(x);
}
INLINE I popcnt32(I x) { return (I)popcnt64(x); }
INLINE I ctz32(I x) { return x ? (I)ctz64(x) : 32; }
INLINE I clz32(I x) { return (I)clz64(x) - 32; }
#endif

/* --- numbers of 128 bits, the low word first, written to `to` */

INLINE L product(L a, L b, L *high) {
#ifdef __SIZEOF_INT128__
  __extension__ unsigned __int128 r = (unsigned __int128)a * b;
  *high = (L)(r >> 64);
  return (L)r;
#else
  const L low = 0xffffffffu;
  L first = (a & low) * (b & low), second = (a >> 32) * (b & low) + (first >> 32);
  L third = (a & low) * (b >> 32) + (second & low);
  *high = (a >> 32) * (b >> 32) + (second >> 32) + (third >> 32);
  return third << 32 | (first & low);
#endif
}
INLINE void multi3(L to, L a, L a_high, L b, L b_high) {
  L high, low = product(a, b, &high);
  P8(to, low);
  P8(to + 8, high + a * b_high + a_high * b);
}
INLINE void lshrti3(L to, L a, L a_high, I n) {
  n &= 127;
  P8(to, n == 0 ? a : n < 64 ? a >> n | a_high << (64 - n) : a_high >> (n - 64));
  P8(to + 8, n < 64 ? a_high >> n : 0);
}
INLINE void ashlti3(L to, L a, L a_high, I n) {
  n &= 127;
  P8(to, n < 64 ? a << n : 0);
  P8(to + 8, n == 0 ? a_high : n < 64 ? a_high << n | a >> (64 - n) : a << (n - 64));
}

/* --- doubles: each operation is rounded on its own and once, as the code says; no step is joined with another */

INLINE L bits_of(W x) { L bits; memcpy(&bits, &x, 8); return bits; }
INLINE W double_of(L bits) { W x; memcpy(&x, &bits, 8); return x; }
INLINE W plus(W a, W b) { volatile W r = a + b; return r; }
INLINE W times(W a, W b) { volatile W r = a * b; return r; }
INLINE W by(W a, W b) { volatile W r = a / b; return r; }

#if (defined(FLT_EVAL_METHOD) && FLT_EVAL_METHOD != 0 && FLT_EVAL_METHOD != 1) || (defined(__TINYC__) && defined(__i386__))
#define SOFT_DOUBLES /* the processor (x87) calculates with more digits, and would round a second time */
#endif
#ifndef SOFT_DOUBLES
INLINE W addW(W a, W b) { return plus(a, b); }
INLINE W subW(W a, W b) { volatile W r = a - b; return r; }
INLINE W mulW(W a, W b) { return times(a, b); }
INLINE W divW(W a, W b) { return by(a, b); }
INLINE W toW(L x) { volatile W r = (W)x; return r; }
#else
/* A number that is neither 0 nor infinite nor none: its digits, the top one at the bit 63 - room, and how much each counts. */
typedef struct { L digits; int exponent; } parts;
INLINE int special(W x) { L high = bits_of(x) >> 52 & 2047; return high == 2047 || (bits_of(x) << 1) == 0; }
INLINE parts parts_of(W x, int room) {
  L bits = bits_of(x), high = bits >> 52 & 2047;
  parts p = {(bits & (((L)1 << 52) - 1)) | (L)(high > 0) << 52, (int)(high ? high : 1) - 1075};
  int shift = (int)clz64(p.digits) - room;
  p.digits <<= shift;
  p.exponent -= shift;
  return p;
}
/* The double nearest to digits * 2^exponent; digits isn't 0. It may be odd where the true number lies beside it, if 55 bits count. */
INLINE W nearest(L sign, L digits, int exponent) {
  int shift = (int)clz64(digits), high = exponent - shift + 63 + 1023, drop = high > 0 ? 11 : 12 - high;
  L kept, rest;
  digits <<= shift;
  if (high > 2046) return double_of(sign | (L)2047 << 52);
  if (drop > 64) return double_of(sign);
  kept = drop == 64 ? 0 : digits >> drop;
  rest = drop == 64 ? digits : digits << (64 - drop);
  kept += rest > (L)1 << 63 || (rest == (L)1 << 63 && (kept & 1));
  return double_of(sign | ((high > 0 ? (L)(high - 1) << 52 : 0) + kept));
}
INLINE W addW(W a, W b) {
  parts p, q;
  L sign = bits_of(a) & (L)1 << 63, other = bits_of(b) & (L)1 << 63, less;
  int apart;
  if (special(a) || special(b)) return plus(a, b);
  p = parts_of(a, 1);
  q = parts_of(b, 1);
  if (p.exponent < q.exponent || (p.exponent == q.exponent && p.digits < q.digits)) {
    parts swapped = p;
    L its = sign;
    p = q, sign = other;
    q = swapped, other = its;
  }
  apart = p.exponent - q.exponent;
  less = apart == 0 ? q.digits : apart > 62 ? 1 : q.digits >> apart | ((q.digits << (64 - apart)) != 0);
  p.digits = sign == other ? p.digits + less : p.digits - less;
  return p.digits ? nearest(sign, p.digits, p.exponent) : double_of(0);
}
INLINE W subW(W a, W b) { return addW(a, double_of(bits_of(b) ^ (L)1 << 63)); }
INLINE W mulW(W a, W b) {
  parts p, q;
  L high, low;
  if (special(a) || special(b)) return times(a, b);
  p = parts_of(a, 0);
  q = parts_of(b, 0);
  low = product(p.digits, q.digits, &high);
  return nearest((bits_of(a) ^ bits_of(b)) & (L)1 << 63, high | (low != 0), p.exponent + q.exponent + 64);
}
INLINE W divW(W a, W b) {
  parts p, q;
  L quotient, rest;
  if (special(a) || special(b)) return by(a, b);
  p = parts_of(a, 0);
  q = parts_of(b, 0);
  quotient = p.digits >= q.digits;
  rest = quotient ? p.digits - q.digits : p.digits;
  for (int i = 0; i < 63; i++) {
    int more = rest >> 63 || rest << 1 >= q.digits;
    rest = (rest << 1) - (more ? q.digits : 0);
    quotient = quotient << 1 | (L)more;
  }
  return nearest((bits_of(a) ^ bits_of(b)) & (L)1 << 63, quotient | (rest != 0), p.exponent - q.exponent - 63);
}
INLINE W toW(L x) { return x ? nearest(0, x, 0) : double_of(0); }
#endif

/* --- vectors of 16 bytes, byte 0 the first in memory. The digit in a name is the bytes of a lane; k is a lane, which is constant. */

#if SSE2_VECTORS

typedef __m128i V;

INLINE V words(L a, L b) { return _mm_set_epi64x((SL)b, (SL)a); }
INLINE L first_(V v) { return (L)_mm_cvtsi128_si64(v); }
INLINE L second_(V v) { return (L)_mm_cvtsi128_si64(_mm_unpackhi_epi64(v, v)); }
INLINE V RV(L p) { return _mm_loadu_si128((const __m128i *)(uintptr_t)p); }
INLINE void PV(L p, V v) { _mm_storeu_si128((__m128i *)(uintptr_t)p, v); }

INLINE V andV(V x, V y) { return _mm_and_si128(x, y); }
INLINE V orV(V x, V y) { return _mm_or_si128(x, y); }
INLINE V xorV(V x, V y) { return _mm_xor_si128(x, y); }
INLINE V notV(V x) { return _mm_xor_si128(x, _mm_set1_epi8(-1)); }
INLINE I anyV(V x) { return _mm_movemask_epi8(_mm_cmpeq_epi8(x, _mm_setzero_si128())) != 65535; }

INLINE V splat1(I x) { return _mm_set1_epi8((char)x); }
INLINE V splat2(I x) { return _mm_set1_epi16((short)x); }
INLINE V splat8(L x) { return _mm_set1_epi64x((SL)x); }
INLINE L get8(V v, int k) { return k ? second_(v) : first_(v); }
INLINE I get1(V v, int k) { return (I)(get8(v, k / 8) >> (k % 8 * 8) & 255); }
INLINE I get2(V v, int k) { return (I)(get8(v, k / 4) >> (k % 4 * 16) & 65535); }
INLINE V put8(V v, int k, L x) { return k ? words(first_(v), x) : words(x, second_(v)); }
INLINE L put_(L w, int at, L mask, L x) { return (w & ~(mask << at)) | (x & mask) << at; }
INLINE V put1(V v, int k, I x) { return put8(v, k / 8, put_(get8(v, k / 8), k % 8 * 8, 255, x)); }
INLINE V put2(V v, int k, I x) { return put8(v, k / 4, put_(get8(v, k / 4), k % 4 * 16, 65535, x)); }

INLINE V add1(V x, V y) { return _mm_add_epi8(x, y); }
INLINE V add2(V x, V y) { return _mm_add_epi16(x, y); }
INLINE V add8(V x, V y) { return _mm_add_epi64(x, y); }
INLINE V mul2(V x, V y) { return _mm_mullo_epi16(x, y); }
INLINE V subsat1(V x, V y) { return _mm_subs_epu8(x, y); }
INLINE V eq1(V x, V y) { return _mm_cmpeq_epi8(x, y); }
INLINE V eq8(V x, V y) { V halves = _mm_cmpeq_epi32(x, y); return _mm_and_si128(halves, _mm_shuffle_epi32(halves, 0xb1)); }
INLINE V ltu1(V x, V y) { return notV(_mm_cmpeq_epi8(_mm_max_epu8(x, y), x)); }
INLINE V lts1(V x, V y) { return _mm_cmplt_epi8(x, y); }
INLINE I mask1(V x) { return (I)_mm_movemask_epi8(x); }
INLINE I mask2(V x) { return (I)_mm_movemask_epi8(_mm_packs_epi16(x, _mm_setzero_si128())); }

INLINE V shru1(V x, I n) {
  return _mm_and_si128(_mm_srl_epi16(x, _mm_cvtsi32_si128((int)(n & 7))), _mm_set1_epi8((char)(255 >> (n & 7))));
}
INLINE V shrs1(V x, I n) {
  V sign = _mm_set1_epi8((char)(128 >> (n & 7)));
  return _mm_sub_epi8(_mm_xor_si128(shru1(x, n), sign), sign);
}
INLINE V shl2(V x, I n) { return _mm_sll_epi16(x, _mm_cvtsi32_si128((int)(n & 15))); }
/* The lower half of the lanes, each as one of twice its size with its sign. */
INLINE V wide1(V x) { return _mm_srai_epi16(_mm_unpacklo_epi8(x, x), 8); }
INLINE V wide2(V x) { return _mm_srai_epi32(_mm_unpacklo_epi16(x, x), 16); }

#else /* as two words; names with _ at the end are of one word */

typedef struct { L a, b; } V; /* byte 0 is the least of `a` */

#define EACH1 0x0101010101010101u
#define EACH2 0x0001000100010001u
#define TOP1 (EACH1 << 7)
#define TOP2 (EACH2 << 15)

INLINE V words(L a, L b) { V v; v.a = a; v.b = b; return v; }
INLINE V RV(L p) { return words(R8(p), R8(p + 8)); }
INLINE void PV(L p, V v) { P8(p, v.a); P8(p + 8, v.b); }

INLINE V andV(V x, V y) { return words(x.a & y.a, x.b & y.b); }
INLINE V orV(V x, V y) { return words(x.a | y.a, x.b | y.b); }
INLINE V xorV(V x, V y) { return words(x.a ^ y.a, x.b ^ y.b); }
INLINE V notV(V x) { return words(~x.a, ~x.b); }
INLINE I anyV(V x) { return (x.a | x.b) != 0; }

INLINE V splat1(I x) { L w = (x & 255) * EACH1; return words(w, w); }
INLINE V splat2(I x) { L w = (x & 65535) * EACH2; return words(w, w); }
INLINE V splat8(L x) { return words(x, x); }
INLINE I get1(V v, int k) { return (I)((k < 8 ? v.a : v.b) >> (8 * (k & 7)) & 255); }
INLINE I get2(V v, int k) { return (I)((k < 4 ? v.a : v.b) >> (16 * (k & 3)) & 65535); }
INLINE L get8(V v, int k) { return k ? v.b : v.a; }
INLINE L put_(L w, int at, L mask, L x) { return (w & ~(mask << at)) | (x & mask) << at; }
INLINE V put1(V v, int k, I x) {
  return k < 8 ? words(put_(v.a, 8 * k, 255, x), v.b) : words(v.a, put_(v.b, 8 * (k - 8), 255, x));
}
INLINE V put2(V v, int k, I x) {
  return k < 4 ? words(put_(v.a, 16 * k, 65535, x), v.b) : words(v.a, put_(v.b, 16 * (k - 4), 65535, x));
}
INLINE V put8(V v, int k, L x) { return k ? words(v.a, x) : words(x, v.b); }

/* Sums and differences: the top bits of lanes are kept apart, so that no carry leaves a lane. */
INLINE L add_(L x, L y, L top) { return ((x & ~top) + (y & ~top)) ^ ((x ^ y) & top); }
INLINE L sub_(L x, L y, L top) { return ((x | top) - (y & ~top)) ^ ((x ^ ~y) & top); }
INLINE V add1(V x, V y) { return words(add_(x.a, y.a, TOP1), add_(x.b, y.b, TOP1)); }
INLINE V add2(V x, V y) { return words(add_(x.a, y.a, TOP2), add_(x.b, y.b, TOP2)); }
INLINE V add8(V x, V y) { return words(x.a + y.a, x.b + y.b); }
INLINE V mul2(V x, V y) {
  V r = {0, 0};
  for (int k = 0; k < 8; k++) r = put2(r, k, get2(x, k) * get2(y, k));
  return r;
}

/* Comparisons: the top bit of each lane says it, and then all bits of the lane. */
INLINE L all1_(L top) { return (top >> 7) * 255; }
INLINE L eq1_(L x, L y) { L d = x ^ y; return all1_(~(((d & ~TOP1) + ~TOP1) | d) & TOP1); }
INLINE L ltu1_(L x, L y) { return all1_(((~x & y) | (~(x ^ y) & sub_(x, y, TOP1))) & TOP1); }
INLINE V eq1(V x, V y) { return words(eq1_(x.a, y.a), eq1_(x.b, y.b)); }
INLINE V eq8(V x, V y) { return words(x.a == y.a ? ~(L)0 : 0, x.b == y.b ? ~(L)0 : 0); }
INLINE V ltu1(V x, V y) { return words(ltu1_(x.a, y.a), ltu1_(x.b, y.b)); }
INLINE V lts1(V x, V y) { return words(ltu1_(x.a ^ TOP1, y.a ^ TOP1), ltu1_(x.b ^ TOP1, y.b ^ TOP1)); }
INLINE L subsat1_(L x, L y) { return sub_(x, y, TOP1) & ~ltu1_(x, y); }
INLINE V subsat1(V x, V y) { return words(subsat1_(x.a, y.a), subsat1_(x.b, y.b)); }

/* The top bits of the lanes, side by side: the product brings them together in its top byte, or in its top 16 bits. */
INLINE L mask1_(L w) { return ((w & TOP1) >> 7) * 0x0102040810204080u >> 56; }
INLINE L mask2_(L w) { return (((w & TOP2) >> 15) * 0x0001000200040008u >> 48) & 15; }
INLINE I mask1(V x) { return (I)(mask1_(x.a) | mask1_(x.b) << 8); }
INLINE I mask2(V x) { return (I)(mask2_(x.a) | mask2_(x.b) << 4); }

INLINE L shru1_(L w, I n) { return w >> n & (255u >> n) * EACH1; }
INLINE L shrs1_(L w, I n) { return shru1_(w, n) | ((w & TOP1) >> 7) * (255u & ~(255u >> n)); }
INLINE V shru1(V x, I n) { return words(shru1_(x.a, n & 7), shru1_(x.b, n & 7)); }
INLINE V shrs1(V x, I n) { return words(shrs1_(x.a, n & 7), shrs1_(x.b, n & 7)); }
INLINE L shl2_(L w, I n) { return w << n & (65535u << n & 65535u) * EACH2; }
INLINE V shl2(V x, I n) { return words(shl2_(x.a, n & 15), shl2_(x.b, n & 15)); }

/* The lower half of the lanes, each as one of twice its size with its sign. */
INLINE V wide1(V x) {
  V r = {0, 0};
  for (int k = 0; k < 8; k++) r = put2(r, k, (I)(S1_)get1(x, k));
  return r;
}
INLINE L wide2_(L low, L high) { return (L)(I)(S2_)(low & 65535) | (L)(I)(S2_)(high & 65535) << 32; }
INLINE V wide2(V x) { return words(wide2_(x.a, x.a >> 16), wide2_(x.a >> 32, x.a >> 48)); }

#endif

/* 16 of the 32 bytes of x and y: those at the places that the bytes of two words say, and those from a place k on, k < 16. */
INLINE V shuffle(V x, V y, L low, L high) {
  V r = words(0, 0);
  for (int k = 0; k < 16; k++) {
    int from = (int)((k < 8 ? low : high) >> (8 * (k & 7)) & 31);
    r = put1(r, k, from < 16 ? get1(x, from) : get1(y, from - 16));
  }
  return r;
}
INLINE L slide_(L low, L high, int n) { return n ? low >> (8 * n) | high << (64 - 8 * n) : low; }
INLINE V slide(V x, V y, int k) {
  L a = get8(x, 0), b = get8(x, 1), c = get8(y, 0), d = get8(y, 1);
  return k < 8 ? words(slide_(a, b, k), slide_(b, c, k)) : words(slide_(b, c, k - 8), slide_(c, d, k - 8));
}

#endif
