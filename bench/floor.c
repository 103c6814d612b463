/*
 * What plain C, with no proof, needs for the same work, written for speed:
 *
 *   strict   the deterministic check, bytewise: adjacent key spans are compared in place
 *   canon    one output buffer; a map's pairs are sorted by spans as it closes; equal keys are refused
 *
 * It has no offsets, only a word for a reason, and only one order of keys.
 */
#include "floor.h"

#include <stdio.h>
#include <stdlib.h>
#include <string.h>

enum { DEPTH = 256 };
typedef struct { const uint8_t *p, *end; const char *why; } In;
typedef struct { uint8_t *p; size_t n, cap; } Out;
typedef struct { uint32_t key, val, end; uint64_t front; } Span;
static struct { Span *p; size_t n, cap; } spans;

#define FAIL(w) do { in->why = (w); return 0; } while (0)

/* Short texts of ASCII with loads that overlap; the rest with utf8_long. */
static int utf8_long(const uint8_t *p, size_t n);
static inline int utf8(const uint8_t *p, size_t n) {
  if (n >= 4 && n <= 8) {
    uint32_t a, b;
    memcpy(&a, p, 4), memcpy(&b, p + n - 4, 4);
    if (((a | b) & 0x80808080u) == 0) return 1;
  } else if (n > 8 && n <= 16) {
    uint64_t a, b;
    memcpy(&a, p, 8), memcpy(&b, p + n - 8, 8);
    if (((a | b) & 0x8080808080808080u) == 0) return 1;
  } else if (n < 4) {
    uint8_t a = n ? p[0] | p[n / 2] | p[n - 1] : 0;
    if (a < 0x80) return 1;
  }
  return utf8_long(p, n);
}
static int utf8_long(const uint8_t *p, size_t n) {
  size_t i = 0;
  for (;;) {
    while (i + 8 <= n) {
      uint64_t w;
      memcpy(&w, p + i, 8);
      if (w & 0x8080808080808080u) break;
      i += 8;
    }
    while (i < n && p[i] < 0x80) i++;
    if (i >= n) return 1;
    uint8_t b = p[i];
    if (b >= 0xc2 && b <= 0xdf) {
      if (i + 2 > n || (p[i + 1] & 0xc0) != 0x80) return 0;
      i += 2;
    } else if ((b & 0xf0) == 0xe0) {
      if (i + 3 > n || (p[i + 1] & 0xc0) != 0x80 || (p[i + 2] & 0xc0) != 0x80) return 0;
      if (b == 0xe0 && p[i + 1] < 0xa0) return 0;
      if (b == 0xed && p[i + 1] > 0x9f) return 0;
      i += 3;
    } else if (b >= 0xf0 && b <= 0xf4) {
      if (i + 4 > n || (p[i + 1] & 0xc0) != 0x80 || (p[i + 2] & 0xc0) != 0x80 || (p[i + 3] & 0xc0) != 0x80) return 0;
      if (b == 0xf0 && p[i + 1] < 0x90) return 0;
      if (b == 0xf4 && p[i + 1] > 0x8f) return 0;
      i += 4;
    } else return 0;
  }
}

/* The head at in->p: major type, argument, and whether it is indefinite. */
typedef struct { uint64_t arg; uint8_t major, ai; } Head;
static inline int head(In *in, Head *h, int strict) {
  if (in->p >= in->end) FAIL("truncated");
  uint8_t b = *in->p++;
  h->major = b >> 5, h->ai = b & 31;
  if (h->ai < 24) { h->arg = h->ai; return 1; }
  if (h->ai > 27) {
    h->arg = 0;
    if (h->ai < 31) FAIL("reserved");
    return 1;
  }
  size_t w = (size_t)1 << (h->ai - 24);
  if ((size_t)(in->end - in->p) < w) FAIL("truncated");
  uint64_t v;
  switch (h->ai) {
    case 24: v = in->p[0]; if (strict && v < 24 && h->major != 7) FAIL("not shortest"); break;
    case 25: { uint16_t x; memcpy(&x, in->p, 2); v = __builtin_bswap16(x); if (strict && v < 256) FAIL("not shortest"); break; }
    case 26: { uint32_t x; memcpy(&x, in->p, 4); v = __builtin_bswap32(x); if (strict && v < 65536) FAIL("not shortest"); break; }
    default: { uint64_t x; memcpy(&x, in->p, 8); v = __builtin_bswap64(x); if (strict && v >> 32 == 0) FAIL("not shortest"); break; }
  }
  h->arg = v, in->p += w;
  return 1;
}

static int simple(In *in, const Head *h) {
  if (h->ai == 31) FAIL("stray break");
  if (h->ai > 24) FAIL("float");
  if (h->ai == 24 && h->arg < 32) FAIL("bad simple");
  return 1;
}

static int before(const uint8_t *a, size_t an, const uint8_t *b, size_t bn) {
  int c = memcmp(a, b, an < bn ? an : bn);
  return c < 0 || (c == 0 && an < bn);
}

/* ---- check and strict ---- */
static int skip_slow(In *in, int strict, int depth);
/* The common small items without a call: integers and texts of ASCII under 24. */
static inline int skip(In *in, int strict, int depth) {
  const uint8_t *p = in->p;
  if (in->end - p > 24) {
    uint8_t b = *p;
    if ((b & 0xdf) < 24) { in->p = p + 1; return 1; } /* 00..17, 20..37 */
    if (b - 0x60u < 24 && utf8(p + 1, b - 0x60u)) { in->p = p + 1 + (b - 0x60u); return 1; }
  }
  return skip_slow(in, strict, depth);
}
static int skip_slow(In *in, int strict, int depth) {
  Head h;
  if (!head(in, &h, strict)) return 0;
  switch (h.major) {
    case 0: case 1:
      if (h.ai == 31) FAIL("no indefinite");
      return 1;
    case 2: case 3:
      if (h.ai != 31) {
        if ((uint64_t)(in->end - in->p) < h.arg) FAIL("truncated");
        if (h.major == 3 && !utf8(in->p, h.arg)) FAIL("text");
        in->p += h.arg;
        return 1;
      }
      if (strict) FAIL("indefinite");
      for (;;) {
        Head c;
        if (in->p < in->end && *in->p == 0xff) { in->p++; return 1; }
        if (!head(in, &c, 0)) return 0;
        if (c.major != h.major || c.ai == 31) FAIL("chunk");
        if ((uint64_t)(in->end - in->p) < c.arg) FAIL("truncated");
        if (h.major == 3 && !utf8(in->p, c.arg)) FAIL("text");
        in->p += c.arg;
      }
    case 4:
      if (depth == 0) FAIL("too deep");
      if (h.ai == 31) {
        if (strict) FAIL("indefinite");
        for (;;) {
          if (in->p < in->end && *in->p == 0xff) { in->p++; return 1; }
          if (!skip(in, strict, depth - 1)) return 0;
        }
      }
      while (h.arg--) if (!skip(in, strict, depth - 1)) return 0;
      return 1;
    case 5: {
      if (depth == 0) FAIL("too deep");
      if (h.ai == 31) {
        if (strict) FAIL("indefinite");
        for (;;) {
          if (in->p < in->end && *in->p == 0xff) { in->p++; return 1; }
          if (!skip(in, strict, depth - 1) || !skip(in, strict, depth - 1)) return 0;
        }
      }
      const uint8_t *last = NULL;
      size_t lastn = 0;
      while (h.arg--) {
        const uint8_t *k = in->p;
        if (!skip(in, strict, depth - 1)) return 0;
        if (strict) {
          if (last && !before(last, lastn, k, in->p - k)) FAIL("key order");
          last = k, lastn = in->p - k;
        }
        if (!skip(in, strict, depth - 1)) return 0;
      }
      return 1;
    }
    case 6:
      if (h.ai == 31) FAIL("no indefinite");
      if (depth == 0) FAIL("too deep");
      return skip(in, strict, depth - 1);
    default:
      return simple(in, &h);
  }
}

/* ---- canon ---- */
static inline void space(Out *o, size_t n) {
  if (o->cap - o->n < n) {
    o->cap = (o->cap + n) * 2;
    o->p = (uint8_t *)realloc(o->p, o->cap);
    if (!o->p) abort();
  }
}
static inline size_t head_len(uint64_t v) { return v < 24 ? 1 : v < 256 ? 2 : v < 65536 ? 3 : v >> 32 == 0 ? 5 : 9; }
static inline void put_head_at(uint8_t *q, uint8_t major, uint64_t v) {
  uint8_t m = major << 5;
  if (v < 24) q[0] = m | v;
  else if (v < 256) q[0] = m | 24, q[1] = v;
  else if (v < 65536) { uint16_t x = __builtin_bswap16(v); q[0] = m | 25; memcpy(q + 1, &x, 2); }
  else if (v >> 32 == 0) { uint32_t x = __builtin_bswap32(v); q[0] = m | 26; memcpy(q + 1, &x, 4); }
  else { uint64_t x = __builtin_bswap64(v); q[0] = m | 27; memcpy(q + 1, &x, 8); }
}
static inline void put_head(Out *o, uint8_t major, uint64_t v) {
  space(o, 9);
  put_head_at(o->p + o->n, major, v);
  o->n += head_len(v);
}
/* Puts a head before what was written from `at` on. */
static void insert_head(Out *o, size_t at, uint8_t major, uint64_t v) {
  size_t k = head_len(v);
  space(o, 9);
  memmove(o->p + at + k, o->p + at, o->n - at);
  put_head_at(o->p + at, major, v);
  o->n += k;
}
static const uint8_t *base;
static inline uint64_t front(const uint8_t *p, size_t n) {
  uint64_t w = 0;
  memcpy(&w, p, n < 8 ? n : 8);
  return __builtin_bswap64(w);
}
static inline int by_key(const void *a, const void *b) {
  const Span *x = (const Span *)a, *y = (const Span *)b;
  if (x->front != y->front) return x->front < y->front ? -1 : 1;
  size_t xn = x->val - x->key, yn = y->val - y->key;
  int c = memcmp(base + x->key, base + y->key, xn < yn ? xn : yn);
  return c ? c : (xn > yn) - (xn < yn);
}
static int write_slow(In *in, Out *o, int depth);
static inline int write(In *in, Out *o, int depth) {
  const uint8_t *p = in->p;
  if (in->end - p > 24) {
    uint8_t b = *p;
    if ((b & 0xdf) < 24) {
      space(o, 1);
      o->p[o->n++] = b, in->p = p + 1;
      return 1;
    }
    if (b - 0x60u < 24 && utf8(p + 1, b - 0x60u)) {
      space(o, 24);
      memcpy(o->p + o->n, p, 24); /* a fixed copy; what is after the text is overwritten */
      o->n += 1 + (b - 0x60u), in->p = p + 1 + (b - 0x60u);
      return 1;
    }
  }
  return write_slow(in, o, depth);
}
static int pair(In *in, Out *o, int depth) {
  Span s;
  s.key = o->n;
  if (!write(in, o, depth)) return 0;
  s.val = o->n;
  if (!write(in, o, depth)) return 0;
  s.end = o->n;
  s.front = front(o->p + s.key, s.val - s.key);
  if (spans.n == spans.cap) {
    spans.cap = spans.cap * 2 + 64;
    spans.p = (Span *)realloc(spans.p, spans.cap * sizeof(Span));
    if (!spans.p) abort();
  }
  spans.p[spans.n++] = s;
  return 1;
}
/* Sorts the pairs from span `first` on, which lie from `at` to the end of the output. */
static int close_map(In *in, Out *o, size_t first, size_t at) {
  Span *s = spans.p + first;
  size_t n = spans.n - first, i;
  base = o->p;
  for (i = 1; i < n && by_key(&s[i - 1], &s[i]) < 0; i++) {}
  if (i < n) {
    if (n <= 24) {
      for (; i < n; i++) {
        Span x = s[i];
        size_t j = i;
        while (j > 0 && by_key(&x, &s[j - 1]) < 0) s[j] = s[j - 1], j--;
        s[j] = x;
      }
    } else {
      qsort(s, n, sizeof(Span), by_key);
    }
    for (i = 1; i < n; i++) if (by_key(&s[i - 1], &s[i]) == 0) FAIL("repeated key");
    size_t len = o->n - at;
    space(o, len);
    uint8_t *q = o->p + o->n;
    for (i = 0; i < n; i++) {
      memcpy(q, o->p + s[i].key, s[i].end - s[i].key);
      q += s[i].end - s[i].key;
    }
    memcpy(o->p + at, o->p + o->n, len);
  }
  spans.n = first;
  return 1;
}
static int write_slow(In *in, Out *o, int depth) {
  Head h;
  if (!head(in, &h, 0)) return 0;
  switch (h.major) {
    case 0: case 1:
      if (h.ai == 31) FAIL("no indefinite");
      put_head(o, h.major, h.arg);
      return 1;
    case 2: case 3: {
      if (h.ai != 31) {
        if ((uint64_t)(in->end - in->p) < h.arg) FAIL("truncated");
        if (h.major == 3 && !utf8(in->p, h.arg)) FAIL("text");
        put_head(o, h.major, h.arg);
        space(o, h.arg);
        memcpy(o->p + o->n, in->p, h.arg);
        o->n += h.arg, in->p += h.arg;
        return 1;
      }
      size_t at = o->n;
      for (;;) {
        Head c;
        if (in->p < in->end && *in->p == 0xff) { in->p++; break; }
        if (!head(in, &c, 0)) return 0;
        if (c.major != h.major || c.ai == 31) FAIL("chunk");
        if ((uint64_t)(in->end - in->p) < c.arg) FAIL("truncated");
        if (h.major == 3 && !utf8(in->p, c.arg)) FAIL("text");
        space(o, c.arg);
        memcpy(o->p + o->n, in->p, c.arg);
        o->n += c.arg, in->p += c.arg;
      }
      insert_head(o, at, h.major, o->n - at);
      return 1;
    }
    case 4: {
      if (depth == 0) FAIL("too deep");
      if (h.ai != 31) {
        put_head(o, 4, h.arg);
        while (h.arg--) if (!write(in, o, depth - 1)) return 0;
        return 1;
      }
      size_t at = o->n;
      uint64_t n = 0;
      for (;; n++) {
        if (in->p < in->end && *in->p == 0xff) { in->p++; break; }
        if (!write(in, o, depth - 1)) return 0;
      }
      insert_head(o, at, 4, n);
      return 1;
    }
    case 5: {
      if (depth == 0) FAIL("too deep");
      size_t first = spans.n;
      if (h.ai != 31) {
        put_head(o, 5, h.arg);
        size_t at = o->n;
        while (h.arg--) if (!pair(in, o, depth - 1)) return 0;
        return close_map(in, o, first, at);
      }
      size_t at = o->n;
      uint64_t n = 0;
      for (;; n++) {
        if (in->p < in->end && *in->p == 0xff) { in->p++; break; }
        if (!pair(in, o, depth - 1)) return 0;
      }
      if (!close_map(in, o, first, at)) return 0;
      insert_head(o, at, 5, n);
      return 1;
    }
    case 6:
      if (h.ai == 31) FAIL("no indefinite");
      if (depth == 0) FAIL("too deep");
      put_head(o, 6, h.arg);
      return write(in, o, depth - 1);
    default:
      if (!simple(in, &h)) return 0;
      put_head(o, 7, h.arg);
      return 1;
  }
}

int floor_strict(const uint8_t *p, size_t n) {
  In i = {p, p + n, ""};
  return skip(&i, 1, DEPTH) && i.p == i.end;
}

int floor_canonicalise(const uint8_t *p, size_t n, uint8_t **out, size_t *length) {
  In i = {p, p + n, ""};
  Out o = {(uint8_t *)malloc(n + 16), 0, n + 16};
  spans.n = 0;
  int ok = o.p && write(&i, &o, DEPTH) && i.p == i.end;
  if (!ok) return free(o.p), 0;
  *out = o.p, *length = o.n;
  return 1;
}
