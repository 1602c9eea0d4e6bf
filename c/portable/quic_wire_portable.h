/* SPDX-License-Identifier: MIT OR Apache-2.0 */
/* What quic_wire_proved.c is written with: memory, whose addresses are the
 * machine's as 64-bit numbers, and the operations of WebAssembly that C lacks.
 * Memory is little-endian; on big-endian machines the structs of callers are
 * byte-swapped at each call. */
#ifndef QUIC_WIRE_PORTABLE_H
#define QUIC_WIRE_PORTABLE_H

#include <stdint.h>
#include <stdlib.h>
#include <string.h>

typedef uint8_t u8;
typedef uint32_t u32;
typedef uint64_t u64;
typedef int8_t s8;
typedef int32_t s32;
typedef int64_t s64;

#if defined(__BYTE_ORDER__) && __BYTE_ORDER__ == __ORDER_BIG_ENDIAN__
#define QW_IS_BIG 1
#define QW_TURN8(n) (n)
#define QW_TURN16(n) ((uint16_t)((n) >> 8 | (n) << 8))
#define QW_TURN32(n) __builtin_bswap32(n)
#define QW_TURN64(n) __builtin_bswap64(n)
#else
#define QW_IS_BIG 0
#define QW_TURN8(n) (n)
#define QW_TURN16(n) (n)
#define QW_TURN32(n) (n)
#define QW_TURN64(n) (n)
#endif

/* ---- Memory */

#define AT(pointer) ((u64)(uintptr_t)(pointer))
#define HERE(address) ((void *)(uintptr_t)(address))
#define UNREACHABLE abort()

#define QW_LOAD(name, bits, as, wide)                                          \
  static inline wide name(u64 address) {                                       \
    uint##bits##_t n;                                                          \
    memcpy(&n, HERE(address), sizeof n);                                       \
    return (wide)(as)QW_TURN##bits(n);                                         \
  }
#define QW_STORE(name, bits, wide)                                             \
  static inline void name(u64 address, wide value) {                           \
    const uint##bits##_t low = (uint##bits##_t)value;                          \
    const uint##bits##_t n = QW_TURN##bits(low);                               \
    memcpy(HERE(address), &n, sizeof n);                                       \
  }
QW_LOAD(i32_load, 32, uint32_t, u32)
QW_LOAD(i32_load8_u, 8, uint8_t, u32)
QW_LOAD(i32_load8_s, 8, int8_t, u32)
QW_LOAD(i32_load16_u, 16, uint16_t, u32)
QW_LOAD(i64_load, 64, uint64_t, u64)
QW_LOAD(i64_load8_u, 8, uint8_t, u64)
QW_LOAD(i64_load16_u, 16, uint16_t, u64)
QW_LOAD(i64_load32_u, 32, uint32_t, u64)
QW_STORE(i32_store, 32, u32)
QW_STORE(i32_store8, 8, u32)
QW_STORE(i32_store16, 16, u32)
QW_STORE(i64_store, 64, u64)
QW_STORE(i64_store8, 8, u64)
QW_STORE(i64_store16, 16, u64)
QW_STORE(i64_store32, 32, u64)

/* For a known length, gcc for x86-64 fills memory with an instruction that
 * takes longer to start than to fill so few bytes.  Pieces of 64 bytes are
 * filled by stores. */
#if defined(__GNUC__)
#define QW_IN_PIECES(len) (__builtin_constant_p(len) && (len) <= 128)
#else
#define QW_IN_PIECES(len) 0
#endif
static inline void memory_copy(u64 to, u64 from, u64 len) {
  if (len)
    memmove(HERE(to), HERE(from), (size_t)len);
}
static inline void memory_fill(u64 to, u32 byte, u64 len) {
  if (QW_IN_PIECES(len))
    for (; len > 64; len -= 64, to += 64)
      memset(HERE(to), (int)(byte & 255), 64);
  if (len)
    memset(HERE(to), (int)(byte & 255), (size_t)len);
}
/* Whether two ranges of |len| bytes are equal. */
static inline u32 memory_same(u64 a, u64 b, u64 len) {
  return !memcmp(HERE(a), HERE(b), (size_t)len);
}

/* ---- Operations */

static inline u32 I32_ROTR(u32 x, u32 by) {
  return x >> (by & 31) | x << ((32 - by) & 31);
}
static inline u32 I32_ROTL(u32 x, u32 by) {
  return x << (by & 31) | x >> ((32 - by) & 31);
}
static inline u64 I64_ROTR(u64 x, u64 by) {
  return x >> (by & 63) | x << ((64 - by) & 63);
}
static inline u64 I64_ROTL(u64 x, u64 by) {
  return x << (by & 63) | x >> ((64 - by) & 63);
}
#if defined(__GNUC__)
static inline u64 I64_CLZ(u64 x) { return x ? (u64)__builtin_clzll(x) : 64; }
static inline u64 I64_CTZ(u64 x) { return x ? (u64)__builtin_ctzll(x) : 64; }
static inline u32 I32_CLZ(u32 x) { return x ? (u32)__builtin_clz(x) : 32; }
#else
static inline u64 I64_CLZ(u64 x) {
  u64 n = 0;
  if (!x)
    return 64;
  for (; !(x >> 63); x <<= 1)
    n++;
  return n;
}
static inline u64 I64_CTZ(u64 x) { return x ? 63 - I64_CLZ(x & (0 - x)) : 64; }
static inline u32 I32_CLZ(u32 x) { return (u32)(I64_CLZ(x) - 32); }
#endif
static inline u64 I64_POPCNT(u64 x) {
  x -= x >> 1 & 0x5555555555555555u;
  x = (x & 0x3333333333333333u) + (x >> 2 & 0x3333333333333333u);
  return ((x + (x >> 4)) & 0x0f0f0f0f0f0f0f0fu) * 0x0101010101010101u >> 56;
}

/* ---- What each call from outside needs: a stack whose end is aligned to 16
 * bytes, as the module assumes (it writes p | 4 for p + 4); and 64-bit
 * variables for lengths, if size_t is narrower or the machine is big-endian. */

#define STACK(words)                                                           \
  u64 stack_[(words) + 2];                                                     \
  const u64 stack = AT(stack_ + (words) + 2) & ~(u64)15;
#define LENGTH_IN(i)                                                           \
  u64 length##i = *a##i;                                                       \
  length##i = QW_TURN64(length##i);
#define LENGTH(i) AT(&length##i)
#define LENGTH_OUT(i) *a##i = (size_t)QW_TURN64(length##i);

/* Structs.  Their layout is a string with a letter for each number in them: b,
 * h, l and q for 1, 2, 4 and 8 bytes. */
#if QW_IS_BIG
static inline void qw_turn(void *to, const void *from, u64 count,
                           const char *layout) {
  u8 *t = (u8 *)to;
  const u8 *f = (const u8 *)from;
  for (; count; count--)
    for (const char *l = layout; *l; l++) {
      const size_t width = *l == 'q' ? 8 : *l == 'l' ? 4 : *l == 'h' ? 2 : 1;
      for (size_t i = 0; 2 * i < width; i++) {
        const u8 x = f[i];
        t[i] = f[width - 1 - i];
        t[width - 1 - i] = x;
      }
      t += width;
      f += width;
    }
}
#define TURN(i, count, type, layout) qw_turn(a##i, a##i, count, layout);
#define ONE_IN(i, type, layout)                                                \
  type one##i;                                                                 \
  qw_turn(&one##i, a##i, 1, layout);
#define ONE(i) AT(&one##i)
#define MANY_IN(i, type, count, layout)                                        \
  type *many##i = (type *)malloc((count) * sizeof(type) + 1);                  \
  if (!many##i)                                                                \
    abort();                                                                   \
  qw_turn(many##i, a##i, count, layout);
#define MANY(i) AT(many##i)
#define MANY_OUT(i) free(many##i);
#else
#define TURN(i, count, type, layout)
#define ONE_IN(i, type, layout)
#define ONE(i) AT(a##i)
#define MANY_IN(i, type, count, layout)
#define MANY(i) AT(a##i)
#define MANY_OUT(i)
#endif

#endif /* QUIC_WIRE_PORTABLE_H */
