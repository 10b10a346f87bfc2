/* The constants of bawbeenor.h against the library: each limit holds where the header puts it, and not one further. Prints what
   does not, and fails then. */
#include <stdio.h>

#include "bawbeenor.h"

_Static_assert(BAWBEENOR_SAVED(BAWBEENOR_ENDPOINTS) == BAWBEENOR_SAVED_LONGEST, "the longest saved area");
_Static_assert(6 + BAWBEENOR_ENDPOINTS * (3 + 64) == BAWBEENOR_BOOK_LONGEST, "the longest book");

static int failures;

#define HOLDS(test) \
    do { \
        if (!(test)) { \
            printf("%s:%d: %s\n", __FILE__, __LINE__, #test); \
            failures++; \
        } \
    } while (0)

/* A book of sinks with the SEIDs 1, 2, .., each with a codec element of `codec` octets. */
static uint8_t book[2048];

static size_t make_book(size_t endpoints, size_t codec)
{
    static const uint8_t head[5] = { 0x48, 0x4C, 0x42, 0, 1 };
    size_t n = 0;
    for (; n < sizeof head; n++)
        book[n] = head[n];
    book[n++] = (uint8_t)endpoints;
    for (size_t i = 1; i <= endpoints; i++) {
        book[n++] = (uint8_t)i;
        book[n++] = 8; /* audio, sink */
        book[n++] = (uint8_t)(4 + codec);
        book[n++] = 1;
        book[n++] = 0;
        book[n++] = 7;
        book[n++] = (uint8_t)codec;
        for (size_t k = 0; k < codec; k++)
            book[n++] = 0;
    }
    return n;
}

static uint8_t saved[BAWBEENOR_SAVED_LONGEST], reply[BAWBEENOR_REPLY], area[BAWBEENOR_SIZE_LARGEST], payload[513];
static const uint8_t discover[2] = { 0x00, 0x01 };

static uint8_t told(size_t length, size_t size, size_t reply_length)
{
    return bawbeenor_packet(book, length, size, saved, sizeof saved, discover, 2, reply, reply_length).number;
}

/* Discover as often as a burst takes packets, the last with a length past the end; then the limits. */
static uint8_t packets[2 * BAWBEENOR_BURST], replies[BAWBEENOR_BURST_REPLY];
static size_t lengths[BAWBEENOR_BURST + 1];

static bawbeenor_answers burst(size_t length, size_t count, size_t reply_length)
{
    return bawbeenor_burst(book, length, 672, saved, sizeof saved, packets, sizeof packets, lengths, count, replies, reply_length);
}

static bool is_zero(bawbeenor_answer a) { return (a.number | a.label | a.kind | a.signal) == 0 && a.length == 0; }

static void bursts(size_t n)
{
    _Static_assert(BAWBEENOR_BURST * BAWBEENOR_REPLY == BAWBEENOR_BURST_REPLY, "64 octets for each packet");
    for (size_t i = 0; i < BAWBEENOR_BURST; i++) {
        packets[2 * i] = (uint8_t)(i << 4);
        packets[2 * i + 1] = 1;
        lengths[i] = 2;
    }
    lengths[3] = 0; /* two empty packets, which are silent, and between them one of six octets */
    lengths[4] = 6;
    lengths[5] = 0;
    lengths[BAWBEENOR_BURST - 1] = 1000;
    for (size_t i = 0; i < sizeof replies; i++)
        replies[i] = 0xEE;
    bawbeenor_answers a = burst(n, BAWBEENOR_BURST, BAWBEENOR_BURST_REPLY);
    HOLDS(a.number == BAWBEENOR_DONE);
    for (size_t i = 0; i < BAWBEENOR_BURST; i++) {
        const uint8_t *slot = replies + BAWBEENOR_REPLY * i;
        if (i == 3 || i == 5) {
            HOLDS(is_zero(a.told[i]) && slot[0] == 0xEE && slot[BAWBEENOR_REPLY - 1] == 0xEE);
        } else if (i == 4) { /* Discover with a payload of four octets is rejected */
            HOLDS(a.told[i].number == 0 && a.told[i].kind == BAWBEENOR_REJECT && a.told[i].length == 1 && slot[0] == 0x11);
        } else {
            HOLDS(a.told[i].kind == BAWBEENOR_ACCEPT && a.told[i].signal == 1 && a.told[i].length == 32);
            HOLDS(slot[0] == 1 << 2 && slot[1] == 8 && slot[31] == 8 && slot[32] == 0xEE);
        }
    }
    a = burst(n, 1, BAWBEENOR_BURST_REPLY);
    HOLDS(a.number == BAWBEENOR_DONE && a.told[0].kind == BAWBEENOR_ACCEPT && is_zero(a.told[1]));
    HOLDS(burst(n, 0, BAWBEENOR_BURST_REPLY).number == BAWBEENOR_DONE);
    HOLDS(burst(n, 1, BAWBEENOR_BURST_REPLY - 1).number == BAWBEENOR_AREA);
    a = burst(n, BAWBEENOR_BURST + 1, BAWBEENOR_BURST_REPLY - 1);
    HOLDS(a.number == BAWBEENOR_TOO_MANY && is_zero(a.told[0]) && is_zero(a.told[BAWBEENOR_BURST - 1]));
}

int main(void)
{
    size_t n = make_book(BAWBEENOR_ENDPOINTS, 60);
    HOLDS(n == BAWBEENOR_BOOK_LONGEST);
    HOLDS(bawbeenor_check(book, n) == BAWBEENOR_DONE);
    HOLDS(bawbeenor_fresh(book, n, saved, BAWBEENOR_SAVED_LONGEST) == BAWBEENOR_DONE);
    n = make_book(BAWBEENOR_ENDPOINTS + 1, 6);
    HOLDS(bawbeenor_check(book, n) == BAWBEENOR_BOOK_COUNT);
    n = make_book(1, 61);
    HOLDS(bawbeenor_check(book, n) == BAWBEENOR_BOOK_LIST);

    for (size_t k = 1; k <= BAWBEENOR_ENDPOINTS; k++) {
        n = make_book(k, 6);
        HOLDS(bawbeenor_fresh(book, n, saved, BAWBEENOR_SAVED(k)) == BAWBEENOR_DONE);
        HOLDS(bawbeenor_fresh(book, n, saved, BAWBEENOR_SAVED(k) - 1) == BAWBEENOR_NOT_LEGAL);
    }

    HOLDS(told(n, BAWBEENOR_SIZE_SMALLEST, BAWBEENOR_REPLY) == BAWBEENOR_DONE);
    HOLDS(told(n, BAWBEENOR_SIZE_LARGEST, BAWBEENOR_REPLY) == BAWBEENOR_DONE);
    HOLDS(told(n, BAWBEENOR_SIZE_SMALLEST - 1, BAWBEENOR_REPLY) == BAWBEENOR_SIZE);
    HOLDS(told(n, BAWBEENOR_SIZE_LARGEST + 1, BAWBEENOR_REPLY) == BAWBEENOR_SIZE);
    HOLDS(told(n, BAWBEENOR_SIZE_LARGEST, BAWBEENOR_REPLY - 1) == BAWBEENOR_AREA);

    bawbeenor_answer a = bawbeenor_packet(book, n, 672, saved, sizeof saved, discover, 2, reply, sizeof reply);
    HOLDS(a.number == BAWBEENOR_DONE && a.label == 0 && a.kind == BAWBEENOR_ACCEPT && a.signal == 1 && a.length == 32);
    HOLDS(reply[0] == 1 << 2 && reply[1] == 8);

    bursts(n);

    HOLDS(bawbeenor_event(book, n, saved, sizeof saved, BAWBEENOR_UP, 0) == BAWBEENOR_DOES_NOT_APPLY);
    HOLDS(bawbeenor_event(book, n, saved, sizeof saved, BAWBEENOR_DOWN, 1) == BAWBEENOR_DOES_NOT_APPLY);
    HOLDS(bawbeenor_event(book, n, saved, sizeof saved, BAWBEENOR_LOST, 0) == BAWBEENOR_DONE);
    for (unsigned kind = BAWBEENOR_LOST + 1; kind < 256; kind++) {
        HOLDS(bawbeenor_event(book, n, saved, sizeof saved, (uint8_t)kind, 1) == BAWBEENOR_DOES_NOT_APPLY);
        HOLDS(bawbeenor_event(book, n, saved, 0, (uint8_t)kind, 1) == BAWBEENOR_NOT_LEGAL);
        HOLDS(bawbeenor_event(book, 0, saved, 0, (uint8_t)kind, 1) == BAWBEENOR_BOOK_LENGTH);
    }

    bawbeenor_span s = bawbeenor_settings(book, n, saved, sizeof saved, 2);
    HOLDS(s.number == BAWBEENOR_DONE && s.area == BAWBEENOR_IN_BOOK && s.offset == 6 + 13 + 3 && s.length == 10);
    s = bawbeenor_settings(book, n, saved, sizeof saved, 17);
    HOLDS(s.number == BAWBEENOR_DOES_NOT_APPLY && s.area == BAWBEENOR_NOWHERE && s.offset == 0 && s.length == 0);
    bawbeenor_lag d = bawbeenor_delay(book, n, saved, sizeof saved, 2);
    HOLDS(d.number == BAWBEENOR_DONE && !d.reported && d.tenths == 0);

    bawbeenor_standing t = bawbeenor_status(book, n, saved, sizeof saved, 2);
    HOLDS(t.number == BAWBEENOR_DONE && t.state == BAWBEENOR_IDLE && t.channel == BAWBEENOR_NO_CHANNEL && t.far_seid == 0);
    t = bawbeenor_status(book, n, saved, sizeof saved, 17);
    HOLDS(t.number == BAWBEENOR_DOES_NOT_APPLY && t.state == BAWBEENOR_IDLE && t.far_seid == 0);
    n = make_book(BAWBEENOR_ENDPOINTS - 1, 6); /* one endpoint fewer than the connection was begun over */
    HOLDS(bawbeenor_status(book, n, saved, sizeof saved, 2).number == BAWBEENOR_NOT_LEGAL);

    HOLDS(bawbeenor_packets(BAWBEENOR_SIZE_SMALLEST, BAWBEENOR_PAYLOAD_LONGEST) == 11);
    HOLDS(bawbeenor_packets(BAWBEENOR_SIZE_SMALLEST, BAWBEENOR_PAYLOAD_LONGEST + 1) == 0);
    HOLDS(bawbeenor_packets(BAWBEENOR_SIZE_SMALLEST - 1, 0) == 0);
    bawbeenor_written w = bawbeenor_cut(48, 15, 3, 63, payload, BAWBEENOR_PAYLOAD_LONGEST, 0, area, 48);
    HOLDS(w.number == BAWBEENOR_DONE && w.length == 48 && area[0] == 0xF7 && area[1] == 11 && area[2] == 63);
    w = bawbeenor_cut(48, 15, 3, 63, payload, BAWBEENOR_PAYLOAD_LONGEST, 0, area, 47);
    HOLDS(w.number == BAWBEENOR_AREA && w.length == 0);
    w = bawbeenor_cut(48, 15, 3, 63, payload, BAWBEENOR_PAYLOAD_LONGEST + 1, 0, area, 48);
    HOLDS(w.number == BAWBEENOR_NOT_TO_CUT && w.length == 0);
    return failures != 0;
}
