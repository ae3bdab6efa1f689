/* A session in plain C, unproved: the same rules, refusals and answers as the proved one, to measure against. */
#ifndef SESSION_H
#define SESSION_H

#include <stddef.h>
#include <stdint.h>

/* The accounts in the order of print. A frame's fault or reason is the account that it goes to, and DELIVERED where it has none. */
enum account { DELIVERED, GAP, ERROR, CLOCK, LONG, CUT, EMPTY, STILL, MIXED, UNDER_WAY, STRAY, UNREADABLE, HEADERS, ACCOUNTS };

/* No readable transfer yet; in a frame; after a frame, in the run of its FID. */
enum phase { FRESH, UNDER, PAST };

/* The kind of header that a session is opened with. */
enum kind { OLD, VP8 };

struct session {
    size_t frame, payload;
    uint8_t framing;
    enum kind kind;
    int closed;
    uint32_t taken;
    enum phase phase;
    int gap, fid;
    /* the frame under way: its first transfer's still bit, its earliest fault, its data so far, how much of it is written, its first stamp,
       its last layer */
    int still;
    enum account fault;
    uint64_t bytes;
    size_t fill;
    int stamped;
    uint32_t stamp;
    int layered;
    uint16_t layer;
    /* the frame under way is in no account until it ends */
    uint64_t count[ACCOUNTS], total[ACCOUNTS], lost, idle, ticks, backward, untimed;
    /* the stamp of the last delivered frame that has one */
    int timed;
    uint32_t last;
};

enum fate { FATE_IDLE, FATE_KEPT, FATE_STRAY, FATE_DELIVERED, FATE_STILL, FATE_DROPPED, FATE_UNREADABLE };

struct answer {
    unsigned refused;    /* the number of the refusal, and nothing else is said; or 0 */
    int handed;          /* the frame under way is handed out, as its fate says, and the transfer is not taken */
    enum account ended;  /* the reason of a frame that this call ended before the transfer; DELIVERED for none */
    enum fate fate;      /* of the transfer itself */
    enum account reason; /* of a dropped frame */
    unsigned number;     /* of an unreadable transfer, 61 to 67 */
    uint64_t length;     /* of a delivered frame or still, and its stamp and layer */
    int stamped;
    uint32_t stamp;
    int layered;
    uint16_t layer;
};

/* 0, 45, 46 or 47 */
unsigned session_open(struct session *s, size_t frame, size_t payload, uint8_t framing, enum kind kind, size_t room);
struct answer session_take(struct session *s, uint8_t *buffer, size_t room, const uint8_t *t, size_t n);
struct answer session_lost(struct session *s);
struct answer session_close(struct session *s);

#endif
