/* bench TRACE TURNS: makes the calls of a trace TURNS times over, through the archive; those behind a MEASURE step by `measured`, in
   which the instructions are counted. reference/src/bin/bench.rs writes traces
   from scripts, and makes the same calls of the reference. */
#include <stdio.h>
#include <stdlib.h>
#include <string.h>

#include "bawbeenor.h"

/* A step: its kind, six numbers of 16 bits, low octet first, the length of its octets, and the octets. */
enum { BOOK, REBOOK, SIZE, AREA, PACKET, UP, DOWN, LOST, SETTINGS, DELAY, CUT, MEASURE, STATUS, BURST };

/* Of a burst the first number is the count of its packets, and before their octets stand their lengths, 16 bits each: they are made
   ready when the trace is read, as a host has them ready. */
typedef struct {
    unsigned kind, numbers[6];
    size_t length;
    const uint8_t *octets;
    const size_t *lengths;
} step;

static uint8_t trace[1 << 24], saved[BAWBEENOR_SAVED_LONGEST], reply[65535], area[65535];
static step steps[1 << 18];
static size_t lengths[1 << 18];

static unsigned pair(const uint8_t *p) { return p[0] + 256u * p[1]; }

static size_t read_trace(const char *name)
{
    FILE *in = fopen(name, "rb");
    if (in == NULL) {
        perror(name);
        exit(1);
    }
    size_t length = fread(trace, 1, sizeof trace, in), count = 0, packets = 0;
    fclose(in);
    for (size_t at = 0; at < length && count < sizeof steps / sizeof *steps; count++) {
        step *s = &steps[count];
        s->kind = trace[at];
        for (size_t i = 0; i < 6; i++)
            s->numbers[i] = pair(trace + at + 1 + 2 * i);
        s->length = pair(trace + at + 13);
        s->octets = trace + at + 15;
        at += 15 + s->length;
        if (s->kind == BURST) {
            s->lengths = lengths + packets;
            for (size_t i = 0; i < s->numbers[0] && packets < sizeof lengths / sizeof *lengths; i++)
                lengths[packets++] = pair(s->octets + 2 * i);
            s->octets += 2 * s->numbers[0];
            s->length -= 2 * s->numbers[0];
        }
    }
    return count;
}

static const uint8_t *book = trace;
static size_t book_length, size = 672, reply_length = 64;

static inline __attribute__((always_inline)) uint64_t take(const step *s)
{
    switch (s->kind) {
    case BOOK:
        if (bawbeenor_fresh(s->octets, s->length, saved, sizeof saved) == 0) {
            book = s->octets;
            book_length = s->length;
        }
        return 0;
    case REBOOK:
        if (bawbeenor_check(s->octets, s->length) == 0) {
            book = s->octets;
            book_length = s->length;
        }
        return 0;
    case SIZE: size = s->numbers[0]; return 0;
    case AREA: reply_length = s->numbers[0]; return 0;
    case PACKET: {
        bawbeenor_answer a = bawbeenor_packet(book, book_length, size, saved, sizeof saved, s->octets, s->length, reply, reply_length);
        return a.number + a.length;
    }
    case BURST: {
        bawbeenor_answers a = bawbeenor_burst(book, book_length, size, saved, sizeof saved, s->octets, s->length, s->lengths,
                                              s->numbers[0], reply, reply_length);
        uint64_t sum = a.number;
#pragma GCC unroll 16 /* one instruction a packet: all that is told is looked at, and little of that is counted */
        for (size_t i = 0; i < BAWBEENOR_BURST; i++)
            sum += a.told[i].length;
        return sum;
    }
    case UP:
    case DOWN:
    case LOST: return bawbeenor_event(book, book_length, saved, sizeof saved, (uint8_t)(s->kind - UP), (uint8_t)s->numbers[0]);
    case SETTINGS: {
        bawbeenor_span a = bawbeenor_settings(book, book_length, saved, sizeof saved, (uint8_t)s->numbers[0]);
        return a.number + a.length;
    }
    case DELAY: return bawbeenor_delay(book, book_length, saved, sizeof saved, (uint8_t)s->numbers[0]).tenths;
    case STATUS: {
        bawbeenor_standing a = bawbeenor_status(book, book_length, saved, sizeof saved, (uint8_t)s->numbers[0]);
        return (uint64_t)a.number + a.state + a.channel + a.far_seid;
    }
    case CUT: {
        bawbeenor_written a =
            bawbeenor_cut(s->numbers[0], (uint8_t)s->numbers[1], (uint8_t)s->numbers[2], (uint8_t)s->numbers[3], s->octets,
                          s->length, s->numbers[5], area, s->numbers[4]);
        return a.number + a.length;
    }
    }
    return 0;
}

__attribute__((noinline, noclone)) uint64_t measured(const step *s);
uint64_t measured(const step *s) { return take(s); }

int main(int argc, char **argv)
{
    if (argc != 3) {
        fprintf(stderr, "usage: bench TRACE TURNS\n");
        return 1;
    }
    size_t count = read_trace(argv[1]);
    uint64_t sum = 0;
    for (long turn = atol(argv[2]); turn > 0; turn--) {
        bool measuring = false;
        for (const step *s = steps; s < steps + count; s++)
            if (s->kind == MEASURE)
                measuring = true;
            else
                sum += measuring ? measured(s) : take(s);
    }
    printf("%llu\n", (unsigned long long)sum);
    return 0;
}
