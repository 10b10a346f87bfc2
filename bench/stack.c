/* Linked with the example host by --wrap: paints the stack below each call of the library, and after it looks how deep the
   paint is gone. At exit prints the deepest of each call, in octets, from the caller's stack pointer before it passes
   arguments. */
#include <stdio.h>
#include <stdlib.h>

#include "bawbeenor.h"

enum { ROOM = 32768, PAINT = 0xA5 };

static const char *const names[] = { "check", "fresh", "packet", "burst", "event", "settings", "delay", "status", "packets", "cut" };
enum { CHECK, FRESH, PACKET, BURST, EVENT, SETTINGS, DELAY, STATUS, PACKETS, CUT, CALLS };
static long deepest[CALLS];

static void report(void)
{
    for (int i = 0; i < CALLS; i++)
        fprintf(stderr, "%s %ld\n", names[i], deepest[i]);
}

static inline __attribute__((always_inline)) volatile uint8_t *top(void)
{
    volatile uint8_t *sp;
    __asm__ volatile("mov %%rsp, %0" : "=r"(sp));
    return sp;
}

static inline __attribute__((always_inline)) volatile uint8_t *paint(void)
{
    static int first = 1;
    if (first) {
        first = 0;
        atexit(report);
    }
    volatile uint8_t *sp = top();
    for (long i = 1; i <= ROOM; i++)
        sp[-i] = PAINT;
    return sp;
}

static inline __attribute__((always_inline)) void look(volatile uint8_t *sp, int call)
{
    long i = ROOM;
    while (i > 0 && sp[-i] == PAINT)
        i--;
    if (i > deepest[call])
        deepest[call] = i;
}

#define WRAP(type, name, call, parameters, arguments) \
    type __real_bawbeenor_##name parameters; \
    type __wrap_bawbeenor_##name parameters; \
    __attribute__((noinline)) type __wrap_bawbeenor_##name parameters \
    { \
        volatile uint8_t *sp = paint(); \
        type answer = __real_bawbeenor_##name arguments; \
        look(sp, call); \
        return answer; \
    }

WRAP(uint8_t, check, CHECK, (const uint8_t *b, size_t n), (b, n))
WRAP(uint8_t, fresh, FRESH, (const uint8_t *b, size_t n, uint8_t *s, size_t m), (b, n, s, m))
WRAP(bawbeenor_answer, packet, PACKET,
     (const uint8_t *b, size_t n, size_t z, uint8_t *s, size_t m, const uint8_t *p, size_t k, uint8_t *r, size_t l),
     (b, n, z, s, m, p, k, r, l))
WRAP(bawbeenor_answers, burst, BURST,
     (const uint8_t *b, size_t n, size_t z, uint8_t *s, size_t m, const uint8_t *p, size_t k, const size_t *c, size_t j, uint8_t *r,
      size_t l),
     (b, n, z, s, m, p, k, c, j, r, l))
WRAP(uint8_t, event, EVENT, (const uint8_t *b, size_t n, uint8_t *s, size_t m, uint8_t k, uint8_t e), (b, n, s, m, k, e))
WRAP(bawbeenor_span, settings, SETTINGS, (const uint8_t *b, size_t n, const uint8_t *s, size_t m, uint8_t e), (b, n, s, m, e))
WRAP(bawbeenor_lag, delay, DELAY, (const uint8_t *b, size_t n, const uint8_t *s, size_t m, uint8_t e), (b, n, s, m, e))
WRAP(bawbeenor_standing, status, STATUS, (const uint8_t *b, size_t n, const uint8_t *s, size_t m, uint8_t e), (b, n, s, m, e))
WRAP(size_t, packets, PACKETS, (size_t z, size_t n), (z, n))
WRAP(bawbeenor_written, cut, CUT,
     (size_t z, uint8_t l, uint8_t k, uint8_t g, const uint8_t *p, size_t n, size_t i, uint8_t *a, size_t m),
     (z, l, k, g, p, n, i, a, m))
