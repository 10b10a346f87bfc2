/* A whole host of the library: an endpoint book, the saved connection in static memory, and a loop that takes packets and
   events and sends what is to be sent. In a bridge the two ends of the loop are the L2CAP channel and the link; here both are
   lines of text:

     host [FILE]      (no FILE: standard input)

   reads the steps of the replay program, one a line, and prints its answers, packets to be sent as `> HEX..`. Nothing is
   allocated, and the library is given all its memory here. The steps `states`, `record`, `count` and `gathering` look into the saved
   connection (docs/SAVED.md), as a test stand does; a bridge has no need of them. */
#include <stdio.h>
#include <string.h>

#include "bawbeenor.h"

/* ---- What the host keeps */

static uint8_t book[BAWBEENOR_BOOK_LONGEST];
static size_t book_length; /* 0: none yet */
static uint8_t saved[BAWBEENOR_SAVED_LONGEST];
static size_t records;              /* of the connection that the last accepted `book` began */
static size_t size = BAWBEENOR_SIZE_LARGEST;
static size_t reply_length = BAWBEENOR_REPLY;
static uint8_t reply[65535];        /* BAWBEENOR_BURST_REPLY octets would do: the step `area` asks for more */
static uint8_t area[65535];         /* BAWBEENOR_SIZE_LARGEST octets would do: the step `cut` asks for more */

/* ---- Lines and words */

enum { LONGEST_LINE = 8191, MOST_WORDS = LONGEST_LINE / 2 + 1 };

static char line[LONGEST_LINE + 2];
static char *words[MOST_WORDS];
static size_t word_count;
static unsigned long line_number;
static uint8_t data[LONGEST_LINE]; /* the octets of a line */
static size_t data_length;

/* Reads a line without its newline; LONGEST_LINE + 1 octets stand for one that is too long. False at the end. */
static bool next_line(FILE *in, size_t *length)
{
    size_t n = 0;
    int c = getc(in);
    if (c == EOF)
        return false;
    for (; c != EOF && c != '\n'; c = getc(in))
        if (n <= LONGEST_LINE)
            line[n++] = (char)c;
    *length = n;
    line_number++;
    return true;
}

static bool is_end(char c) { return c == ' ' || c == '\t' || c == '\r'; }

/* Splits a line at single blanks, without what stands behind `#`. Two blanks in a row give an empty word, which is none. */
static void split(size_t length)
{
    char *from = line, *to = memchr(line, '#', length);
    if (to == NULL)
        to = line + length;
    while (from < to && is_end(*from))
        from++;
    while (from < to && is_end(to[-1]))
        to--;
    word_count = 0;
    if (from == to)
        return;
    *to = '\0';
    words[word_count++] = from;
    for (; from < to; from++)
        if (*from == ' ') {
            *from = '\0';
            words[word_count++] = from + 1;
        } else if (*from == '\0')
            *from = '\1'; /* no word has it */
}

static bool is(size_t i, const char *name) { return strcmp(words[i], name) == 0; }

static int hex_digit(char c)
{
    if (c >= '0' && c <= '9')
        return c - '0';
    if (c >= 'a' && c <= 'f')
        return c - 'a' + 10;
    if (c >= 'A' && c <= 'F')
        return c - 'A' + 10;
    return -1;
}

static bool add_octet(const char *digits)
{
    int high = hex_digit(digits[0]);
    int low = high < 0 ? -1 : hex_digit(digits[1]);
    if (low < 0)
        return false;
    data[data_length++] = (uint8_t)(16 * high + low);
    return true;
}

/* The words from `first` on as octets. */
static bool octets(size_t first)
{
    data_length = 0;
    for (size_t i = first; i < word_count; i++)
        if (!add_octet(words[i]) || words[i][2] != '\0')
            return false;
    return true;
}

static bool number(size_t i, size_t most, size_t *n)
{
    const char *c = words[i];
    size_t value = 0;
    for (; *c >= '0' && *c <= '9'; c++) {
        value = 10 * value + (size_t)(*c - '0');
        if (value > most)
            return false;
    }
    if (c == words[i] || *c != '\0')
        return false;
    *n = value;
    return true;
}

static bool octet(size_t i, uint8_t *n)
{
    size_t value;
    if (!number(i, 255, &value))
        return false;
    *n = (uint8_t)value;
    return true;
}

static void print_octets(const char *before, const uint8_t *from, size_t n)
{
    for (size_t i = 0; i < n; i++)
        printf("%s%02X", before, from[i]);
}

/* ---- The book. The saved area is lent whole: its first octet tells how many records a connection has, and over a book of
   another number of endpoints it is told 12. */

static void keep_book(void)
{
    memcpy(book, data, data_length);
    book_length = data_length;
}

static void take_book(bool fresh)
{
    uint8_t n = bawbeenor_check(data, data_length);
    if (n == BAWBEENOR_DONE) {
        if (fresh) {
            records = data[5];
            bawbeenor_fresh(data, data_length, saved, sizeof saved);
        }
        keep_book();
    }
    printf("book %u\n", n);
}

/* ---- A packet comes in, and what is to be said goes out in packets of the size */

static void send_answer(bawbeenor_answer a, const uint8_t *payload)
{
    if (a.kind == BAWBEENOR_SILENT) {
        puts("silent");
        return;
    }
    size_t count = bawbeenor_packets(size, a.length);
    for (size_t i = 0; i < count; i++) {
        bawbeenor_written w = bawbeenor_cut(size, a.label, a.kind, a.signal, payload, a.length, i, area, size);
        putchar('>');
        print_octets(" ", area, w.length);
        putchar('\n');
    }
}

static void take_packet(void)
{
    bawbeenor_answer a = bawbeenor_packet(book, book_length, size, saved, sizeof saved, data, data_length, reply, reply_length);
    if (a.number != BAWBEENOR_DONE)
        printf("refused %u\n", a.number);
    else
        send_answer(a, reply);
}

/* ---- What the radio board held comes in at once: burst / HEX.. / HEX.. */

enum { MOST_PACKETS = 40 }; /* more than a burst may have, so that the refusal can be seen */

static size_t lengths[MOST_PACKETS];

static bool take_burst(void)
{
    size_t count = 0;
    data_length = 0;
    for (size_t i = 1; i < word_count; i++)
        if (is(i, "/")) {
            if (count == MOST_PACKETS)
                return false;
            lengths[count++] = 0;
        } else {
            if (count == 0 || !add_octet(words[i]) || words[i][2] != '\0')
                return false;
            lengths[count - 1]++;
        }
    bawbeenor_answers a = bawbeenor_burst(book, book_length, size, saved, sizeof saved, data, data_length, lengths, count, reply,
                                          reply_length);
    printf("burst %u\n", a.number);
    if (a.number == BAWBEENOR_DONE)
        for (size_t n = 0; n < count; n++)
            send_answer(a.told[n], reply + BAWBEENOR_REPLY * n);
    return true;
}

static void take_event(uint8_t kind, uint8_t seid)
{
    printf("event %u\n", bawbeenor_event(book, book_length, saved, sizeof saved, kind, seid));
}

/* ---- Questions */

static void show_settings(uint8_t seid)
{
    bawbeenor_span s = bawbeenor_settings(book, book_length, saved, sizeof saved, seid);
    printf("settings %u", s.number);
    print_octets(" ", (s.area == BAWBEENOR_IN_BOOK ? book : saved) + s.offset, s.length);
    putchar('\n');
}

static void show_delay(uint8_t seid)
{
    bawbeenor_lag d = bawbeenor_delay(book, book_length, saved, sizeof saved, seid);
    printf("delay %u %s %u\n", d.number, d.reported ? "reported" : "unreported", d.tenths);
}

/* ---- The test stand's view of the saved connection */

static const char *const states[] = { "idle", "configured", "open", "streaming", "closing", "aborting" };
static const char *const channels[] = { "none", "awaited", "up" };

static int named(size_t i, const char *const *names, int count)
{
    for (int n = 0; n < count; n++)
        if (is(i, names[n]))
            return n;
    return -1;
}

enum { LINK = 1, HEAD = 16 }; /* where the link part begins, and the octets of a record before its configuration */

static uint8_t *record_at(size_t i) { return saved + BAWBEENOR_SAVED(i); }

static void show_status(uint8_t seid)
{
    bawbeenor_standing t = bawbeenor_status(book, book_length, saved, sizeof saved, seid);
    printf("status %u %s %s %u\n", t.number, states[t.state], channels[t.channel], t.far_seid);
}

static void show_states(void)
{
    for (size_t i = 0; i < records; i++) {
        const uint8_t *r = record_at(i);
        printf("%u %s %s %u ", r[0], states[r[1]], channels[r[2]], r[3]);
        if (r[4] == 0)
            printf("- ");
        else
            printf("%u ", 256u * r[5] + r[6]);
        if (r[7] == 0)
            putchar('-');
        print_octets("", r + HEAD, r[7]);
        putchar('\n');
    }
}

/* record SEID STATE CHANNEL FAR DELAY CONFIG */
static bool put_record(void)
{
    uint8_t seid, far, *r = NULL;
    size_t tenths = 0, digits = strlen(words[6]);
    int state = named(2, states, 6), channel = named(3, channels, 3);
    bool reported = !is(5, "-");
    if (!octet(1, &seid) || state < 0 || channel < 0 || !octet(4, &far) || (reported && !number(5, 65535, &tenths)))
        return false;
    data_length = 0;
    if (!is(6, "-")) {
        if (digits == 0 || digits > 128 || digits % 2 != 0)
            return false;
        for (size_t i = 0; i < digits; i += 2)
            if (!add_octet(words[6] + i))
                return false;
    }
    for (size_t i = 0; i < records && r == NULL; i++)
        if (record_at(i)[0] == seid)
            r = record_at(i);
    if (r == NULL)
        return false;
    r[1] = (uint8_t)state;
    r[2] = (uint8_t)channel;
    r[3] = far;
    r[4] = reported;
    r[5] = (uint8_t)(tenths / 256);
    r[6] = (uint8_t)(tenths % 256);
    r[7] = (uint8_t)data_length;
    memcpy(r + HEAD, data, data_length);
    return true;
}

/* gathering LABEL TYPE SIGNAL COUNT PARTS HEX.. */
static bool put_gathering(void)
{
    uint8_t head[5];
    for (size_t i = 0; i < 5; i++)
        if (!octet(i + 1, &head[i]))
            return false;
    if (!octets(6) || data_length > BAWBEENOR_PAYLOAD_LONGEST)
        return false;
    uint8_t *link = saved + LINK;
    link[0] = 1;
    memcpy(link + 1, head, 5);
    link[6] = (uint8_t)(data_length / 256);
    link[7] = (uint8_t)(data_length % 256);
    memcpy(link + 8, data, data_length);
    return true;
}

/* cut SIZE LABEL TYPE SIGNAL AREA N HEX.. */
static bool show_cut(void)
{
    size_t at, length, index;
    uint8_t label, kind, signal;
    if (!number(1, 65535, &at) || !octet(2, &label) || !octet(3, &kind) || !octet(4, &signal) || !number(5, 65535, &length)
        || !number(6, 65535, &index) || !octets(7))
        return false;
    bawbeenor_written w = bawbeenor_cut(at, label, kind, signal, data, data_length, index, area, length);
    printf("cut %u", w.number);
    print_octets(" ", area, w.length);
    putchar('\n');
    return true;
}

/* ---- One step; false: not understood */

static bool step(void)
{
    uint8_t seid;
    if (is(0, "book") || (is(0, "rebook") && book_length != 0)) {
        if (!octets(1))
            return false;
        take_book(is(0, "book"));
        return true;
    }
    if (is(0, "size") && word_count == 2)
        return number(1, 65535, &size);
    if (is(0, "area") && word_count == 2)
        return number(1, 65535, &reply_length);
    if (is(0, "cut") && word_count >= 7)
        return show_cut();
    if (is(0, "explain") && word_count == 1)
        return true;
    if (book_length == 0)
        return false;
    if (is(0, "packet")) {
        if (!octets(1))
            return false;
        take_packet();
    } else if (is(0, "burst"))
        return take_burst();
    else if (is(0, "up") && word_count == 1)
        take_event(BAWBEENOR_UP, 0);
    else if (is(0, "down") && word_count == 2 && octet(1, &seid))
        take_event(BAWBEENOR_DOWN, seid);
    else if (is(0, "lost") && word_count == 1)
        take_event(BAWBEENOR_LOST, 0);
    else if (is(0, "settings") && word_count == 2 && octet(1, &seid))
        show_settings(seid);
    else if (is(0, "delay") && word_count == 2 && octet(1, &seid))
        show_delay(seid);
    else if (is(0, "status") && word_count == 2 && octet(1, &seid))
        show_status(seid);
    else if (is(0, "states") && word_count == 1)
        show_states();
    else if (is(0, "record") && word_count == 7)
        return put_record();
    else if (is(0, "gathering") && word_count == 2 && is(1, "none"))
        saved[LINK] = 0;
    else if (is(0, "count") && word_count == 2)
        return octet(1, saved);
    else if (is(0, "gathering") && word_count >= 6)
        return put_gathering();
    else
        return false;
    return true;
}

int main(int argc, char **argv)
{
    FILE *in = stdin;
    if (argc > 2 || (argc == 2 && (in = fopen(argv[1], "rb")) == NULL)) {
        fprintf(stderr, "usage: host [FILE]\n");
        return 1;
    }
    for (size_t length; next_line(in, &length);) {
        split(length);
        if (length > LONGEST_LINE || (word_count != 0 && !step()))
            printf("line %lu not understood\n", line_number);
    }
    return 0;
}
