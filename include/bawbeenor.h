/* bawbeenor.h: the signalling side of a listening bridge, for a host in C.

   Every call answers every input: there is nothing to test before it. Each is proved to answer what crates/rules/specs/Host.antt
   and Bursts.antt say (crates/host), with what the caller owes here:

   - An area goes in as two parameters, where it begins and its length in octets; the lengths of a burst's packets as where they
     begin and how many they are. All of it is the caller's: the library has no memory of its own, keeps no address after a call,
     and takes nothing from a heap.
   - An area is never NULL, also where its length is 0.
   - A lent area (uint8_t *) overlaps no other area of the same call, and nothing else reads or writes it during the call. Areas
     that are only read (const uint8_t *) may overlap each other, and nothing writes them during the call.
   - Calls over different areas may run at the same time.

   A refusal (any number but 0) changes no octet of any area. Calls need some stack: docs/SPEED.md says how much. The archive
   needs memcpy and memset of the C library and nothing else. */
#ifndef BAWBEENOR_H
#define BAWBEENOR_H

#include <stdbool.h>
#include <stddef.h>
#include <stdint.h>

#ifdef __cplusplus
extern "C" {
#endif

/* ---- Sizes, in octets */

#define BAWBEENOR_ENDPOINTS 16         /* of a book, at most */
#define BAWBEENOR_BOOK_LONGEST 1078    /* 6 + 16 * (3 + 64) */
#define BAWBEENOR_SAVED(endpoints) (521 + 80 * (size_t)(endpoints))
#define BAWBEENOR_SAVED_LONGEST 1801   /* BAWBEENOR_SAVED(BAWBEENOR_ENDPOINTS) */
#define BAWBEENOR_REPLY 64             /* of a reply area, at least; no reply's payload is longer */
#define BAWBEENOR_BURST 16             /* packets of a burst, at most */
#define BAWBEENOR_BURST_REPLY 1024     /* of a burst's reply area, at least: BAWBEENOR_REPLY octets for each of its packets */
#define BAWBEENOR_SIZE_SMALLEST 48     /* packet sizes */
#define BAWBEENOR_SIZE_LARGEST 672
#define BAWBEENOR_PAYLOAD_LONGEST 512  /* of a message */

/* ---- Numbers, in the order in which a call tests: the book 1 to 7, then 8, 13, 9, 12, 10; the cutter 8, 11, 9 */

enum {
    BAWBEENOR_DONE = 0,
    BAWBEENOR_BOOK_LENGTH = 1,     /* book shorter than 6, an entry or its list past the end, or octets left over */
    BAWBEENOR_BOOK_MARK = 2,       /* book's mark */
    BAWBEENOR_BOOK_VERSION = 3,    /* book's version is not 1 */
    BAWBEENOR_BOOK_COUNT = 4,      /* book's count is not 1 to 16 */
    BAWBEENOR_BOOK_SEID = 5,       /* a SEID outside 1 to 62 or not ascending */
    BAWBEENOR_BOOK_KIND = 6,       /* a kind octet */
    BAWBEENOR_BOOK_LIST = 7,       /* a capability list above 64 octets or that breaks its rules */
    BAWBEENOR_SIZE = 8,            /* packet size is not 48 to 672 */
    BAWBEENOR_AREA = 9,            /* reply area below 64 octets, a burst's below 1,024, or packet area below the packet to be
                                      written */
    BAWBEENOR_DOES_NOT_APPLY = 10, /* the event or the endpoint asked about does not apply */
    BAWBEENOR_NOT_TO_CUT = 11,     /* no such packet, payload above 512, label above 15, message type above 3, signal above 63 */
    BAWBEENOR_NOT_LEGAL = 12,      /* the saved connection is not legal for this book, or its area too short */
    BAWBEENOR_TOO_MANY = 13        /* more than 16 packets in a burst */
};

/* ---- The book: 0x48 0x4C 0x42, version 0 1, count; then for each endpoint its SEID, its kind octet, the length of its list of
   elements, and the list. It is judged at every call, so it may lie in memory that anything can write between calls. */

/* Whether a book is right: 0, or 1 to 7. */
uint8_t bawbeenor_check(const uint8_t *book, size_t book_length);

/* ---- The saved connection: BAWBEENOR_SAVED(endpoints) octets, docs/SAVED.md draws them. The host keeps them between calls, and
   through a restart if it likes: an area that holds no legal connection is told 12, and so is one that was begun over a book of
   more endpoints, or of fewer: its first octet counts them. An area may be longer, and lent whole: octets behind the last record
   are never touched, and never looked at. */

/* Begins: every endpoint idle, nothing gathered. 1 to 7, or 12 where the area is too short. */
uint8_t bawbeenor_fresh(const uint8_t *book, size_t book_length, uint8_t *saved, size_t saved_length);

/* ---- A packet from the far end */

enum { BAWBEENOR_SILENT = 0, BAWBEENOR_GENERAL_REJECT = 1, BAWBEENOR_ACCEPT = 2, BAWBEENOR_REJECT = 3 };

typedef struct {
    uint8_t number;
    uint8_t label;  /* label, message type and signal go to bawbeenor_cut as they are */
    uint8_t kind;   /* message type; 0: nothing is to be sent */
    uint8_t signal;
    size_t length;  /* of the payload, at the front of the reply area */
} bawbeenor_answer;

/* Takes one packet; `size` is the largest packet that the host takes. The reply's payload is written at the front of `reply`;
   the octets behind it stay. 1 to 7, 8, 9 where the reply area is below 64 octets, 12. A refusal has 0 in all fields but the
   number. */
bawbeenor_answer bawbeenor_packet(const uint8_t *book, size_t book_length, size_t size, uint8_t *saved, size_t saved_length,
                                  const uint8_t *packet, size_t packet_length, uint8_t *reply, size_t reply_length);

/* For code that is built against headers of several editions: this one declares bawbeenor_burst. */
#define BAWBEENOR_BURST_DECLARED 1

typedef struct {
    uint8_t number;
    bawbeenor_answer told[BAWBEENOR_BURST]; /* of packet n at told[n], counted from 0; each has the number 0 */
} bawbeenor_answers;

/* Takes up to 16 packets by one call, as if each were handed to bawbeenor_packet in its turn; the book and the saved connection are
   judged once. The packets lie one behind the other in `packets`, of `packets_length` octets in all, and lengths[n] is the length
   of packet n: a length past the end takes the octets that are left, and octets behind the last packet are ignored. The reply's
   payload of packet n is written at reply + 64 * n, in 64 octets that are packet n's own; the octets behind it stay, and a silent
   packet leaves all 64. What is told beyond `count` is 0.

   1 to 7, 8, 13 where `count` is above 16, 9 where the reply area is below 1,024 octets however few the packets are, 12. All are
   given before the first packet is read: a refusal has 0 in all fields but the number. No packets: 0, and nothing changes.

   `packets` and `lengths` are only read. Like any area, neither is NULL, also where `count` is 0. */
bawbeenor_answers bawbeenor_burst(const uint8_t *book, size_t book_length, size_t size, uint8_t *saved, size_t saved_length,
                                  const uint8_t *packets, size_t packets_length, const size_t *lengths, size_t count,
                                  uint8_t *reply, size_t reply_length);

/* ---- The link */

enum { BAWBEENOR_UP = 0, BAWBEENOR_DOWN = 1, BAWBEENOR_LOST = 2 };

/* Takes a link event: BAWBEENOR_UP the awaited media channel is there, BAWBEENOR_DOWN the media channel of our endpoint `seid`
   is gone, BAWBEENOR_LOST the link is. `seid` counts for BAWBEENOR_DOWN only. 1 to 7, 12, 10 where no endpoint awaits a
   channel, where the endpoint has none, or where `event` is none of the three. BAWBEENOR_LOST always applies. */
uint8_t bawbeenor_event(const uint8_t *book, size_t book_length, uint8_t *saved, size_t saved_length, uint8_t event, uint8_t seid);

/* ---- Questions about an endpoint of ours */

enum { BAWBEENOR_NOWHERE = 0, BAWBEENOR_IN_BOOK = 1, BAWBEENOR_IN_SAVED = 2 };

typedef struct {
    uint8_t number;
    uint8_t area;   /* which of the two areas */
    size_t offset;  /* offset + length is within that area */
    size_t length;  /* never 0 where the number is 0 */
} bawbeenor_span;

/* Where its settings stand: its configuration in the saved area, else what it offers in the book. They are good until the next
   call that is lent the saved area. 1 to 7, 12, 10 where the book has no such SEID; a refusal has 0 in all fields but the
   number. */
bawbeenor_span bawbeenor_settings(const uint8_t *book, size_t book_length, const uint8_t *saved, size_t saved_length,
                                  uint8_t seid);

typedef struct {
    uint8_t number;
    bool reported;
    uint16_t tenths; /* of a millisecond; 0 where nothing was reported */
} bawbeenor_lag;

/* The delay that the far end reported for it. 1 to 7, 12, 10 where the book has no such SEID; a refusal shows unreported. */
bawbeenor_lag bawbeenor_delay(const uint8_t *book, size_t book_length, const uint8_t *saved, size_t saved_length, uint8_t seid);

/* For code that is built against headers of several editions: this one declares bawbeenor_status. */
#define BAWBEENOR_STATUS_DECLARED 1

enum { BAWBEENOR_IDLE = 0, BAWBEENOR_CONFIGURED = 1, BAWBEENOR_OPEN = 2, BAWBEENOR_STREAMING = 3, BAWBEENOR_CLOSING = 4,
       BAWBEENOR_ABORTING = 5 };
enum { BAWBEENOR_NO_CHANNEL = 0, BAWBEENOR_CHANNEL_AWAITED = 1, BAWBEENOR_CHANNEL_UP = 2 };

typedef struct {
    uint8_t number;
    uint8_t state;
    uint8_t channel;
    uint8_t far_seid; /* the far end's SEID; 0 where there is none */
} bawbeenor_standing;

/* How it stands: its state, its channel and the far end's SEID. 1 to 7, 12, 10 where the book has no such SEID; a refusal shows
   idle, no channel, 0. */
bawbeenor_standing bawbeenor_status(const uint8_t *book, size_t book_length, const uint8_t *saved, size_t saved_length,
                                    uint8_t seid);

/* ---- The cutter: a message as packets of at most `size` octets, to be sent in a row */

/* How many packets a payload of this length takes; 0 where the size is not 48 to 672 or the payload is above 512 octets. */
size_t bawbeenor_packets(size_t size, size_t payload_length);

typedef struct {
    uint8_t number;
    size_t length; /* of the packet that was written */
} bawbeenor_written;

/* Writes packet number `index`, counted from 0, at the front of `area`; `size` octets are always enough. 8, 11, 9. */
bawbeenor_written bawbeenor_cut(size_t size, uint8_t label, uint8_t kind, uint8_t signal, const uint8_t *payload,
                                size_t payload_length, size_t index, uint8_t *area, size_t area_length);

#ifdef __cplusplus
}
#endif

#endif
