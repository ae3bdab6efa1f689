/* WITHOUT_RULE_50 leaves out the look at the session record that each call begins with; BY_MEMCPY copies by the C library and not by a loop. */
#include "session.h"

#include <string.h>

static int sizes_broken(size_t frame, size_t payload) {
    return frame == 0 || frame > 16777216 ? 45 : payload < 2 || payload > 65536 ? 46 : 0;
}

#ifdef WITHOUT_RULE_50
static int record_broken(const struct session *s) {
    (void)s;
    return 0;
}
#else
static int record_broken(const struct session *s) {
    uint64_t n = s->taken, most = 65536 * n;
    if (sizes_broken(s->frame, s->payload))
        return 1;
    if (s->phase == UNDER) {
        if (s->fill > s->frame || (s->fault == DELIVERED && s->fill != s->bytes) || n < 1 || s->bytes > most)
            return 1;
    }
    for (int k = 0; k < ACCOUNTS; k++)
        if (s->count[k] > n || s->total[k] > most)
            return 1;
    return s->ticks > n << 31 || s->lost > n || s->idle > n || s->backward > n || s->untimed > n;
}
#endif

static unsigned close_refusal(const struct session *s) { return record_broken(s) ? 50 : s->closed ? 53 : 0; }

static unsigned lost_refusal(const struct session *s) {
    unsigned number = close_refusal(s);
    return number ? number : s->taken == UINT32_MAX ? 52 : 0;
}

static unsigned take_refusal(const struct session *s, size_t room, size_t n) {
    unsigned number = lost_refusal(s);
    return number ? number : room < s->frame ? 51 : n > 65536 ? 55 : 0;
}

static void post(struct session *s, enum account account, uint64_t bytes) {
    s->count[account]++;
    s->total[account] += bytes;
}

/* an unreadable or lost transfer faults the frame under way at once, and the next one's start */
static void spoil(struct session *s) {
    s->gap = 1;
    if (s->phase == UNDER && s->fault == DELIVERED)
        s->fault = GAP;
}

/* D1 of the framing byte: frames end by EOF */
static int by_eof(const struct session *s) { return s->framing >> 1 & 1; }

/* ends a frame under way without its EOF; other names one without fault */
static enum account end(struct session *s, enum account other) {
    if (s->phase != UNDER)
        return DELIVERED;
    enum account reason = s->fault == DELIVERED ? other : s->fault;
    post(s, reason, s->bytes);
    return reason;
}

static void delivered(struct session *s) {
    post(s, DELIVERED, s->bytes);
    if (!s->stamped) {
        s->untimed++;
        return;
    }
    if (s->timed) {
        uint32_t step = s->stamp - s->last;
        if (step < UINT32_C(0x80000000))
            s->ticks += step;
        else
            s->backward++;
    }
    s->timed = 1;
    s->last = s->stamp;
}

/* the bytes of a header with no field */
static size_t least(const struct session *s) { return s->kind == VP8 ? 4 : 2; }

static int has_layer(const struct session *s, int flags) { return s->kind == VP8 && flags & 0x80; }

/* the bytes of a header with the fields that its flags announce */
static size_t need(const struct session *s, int flags) {
    return least(s) + (flags & 4 ? 4 : 0) + (flags & 8 ? 6 : 0) + (has_layer(s, flags) ? 2 : 0);
}

/* 61 to 67, or 0 */
static unsigned unreadable(const struct session *s, const uint8_t *t, size_t n) {
    size_t bare = least(s);
    if (n < bare)
        return 61;
    if (n > s->payload)
        return 62;
    if (t[0] < bare)
        return 63;
    if (t[0] > n)
        return 64;
    if (t[0] < need(s, t[1]))
        return 65;
    if (!(t[bare - 1] & 0x80))
        return 66;
    return s->kind == VP8 && !(t[1] & 4) ? 67 : 0;
}

static void put(uint8_t *to, const uint8_t *from, size_t n) {
#ifdef BY_MEMCPY
    memcpy(to, from, n);
#else
    for (size_t i = 0; i < n; i++)
        to[i] = from[i];
#endif
}

/* a frame without fault and with data: delivered, or a still */
static void whole(struct session *s, struct answer *a) {
    s->phase = PAST;
    if (s->still)
        post(s, STILL, s->bytes);
    else
        delivered(s);
    a->fate = s->still ? FATE_STILL : FATE_DELIVERED;
    a->length = s->bytes;
    a->stamped = s->stamped;
    a->stamp = s->stamp;
    a->layered = s->layered;
    a->layer = s->layer;
}

/* a readable transfer with n bytes of data */
static void readable(struct session *s, uint8_t *buffer, const uint8_t *t, const uint8_t *data, size_t n, struct answer *a) {
    int flags = t[1], fid = flags & 1, still = s->kind == OLD && flags & 0x20;
    if (s->phase == FRESH || s->fid != fid) {
        a->ended = end(s, by_eof(s) ? CUT : EMPTY);
        s->phase = UNDER;
        s->fid = fid;
        s->still = still;
        s->fault = s->gap ? GAP : DELIVERED;
        s->bytes = 0;
        s->fill = 0;
        s->stamped = 0;
        s->layered = 0;
    }
    s->gap = 0;
    if (s->phase == PAST) {
        post(s, STRAY, n);
        a->fate = FATE_STRAY;
        return;
    }
    if (s->fault == DELIVERED && flags & 0x40)
        s->fault = ERROR;
    if (flags & 4) {
        const uint8_t *at = t + least(s);
        uint32_t stamp = (uint32_t)at[0] | (uint32_t)at[1] << 8 | (uint32_t)at[2] << 16 | (uint32_t)at[3] << 24;
        if (!s->stamped) {
            s->stamped = 1;
            s->stamp = stamp;
        } else if (s->fault == DELIVERED && s->stamp != stamp) {
            s->fault = CLOCK;
        }
    }
    if (has_layer(s, flags)) {
        const uint8_t *end = t + need(s, flags);
        s->layered = 1;
        s->layer = (uint16_t)(end[-2] | end[-1] << 8);
    }
    if (s->fault == DELIVERED && s->still != still)
        s->fault = MIXED;
    if (s->fault == DELIVERED && s->bytes + n > s->frame)
        s->fault = LONG;
    if (s->fault == DELIVERED) {
        put(buffer + s->fill, data, n);
        s->fill += n;
    }
    s->bytes += n;
    a->fate = FATE_KEPT;
    if (!(flags & 2) || !by_eof(s))
        return;
    if (s->fault == DELIVERED && s->bytes != 0) {
        whole(s, a);
    } else {
        s->phase = PAST;
        a->reason = s->fault == DELIVERED ? EMPTY : s->fault;
        post(s, a->reason, s->bytes);
        a->fate = FATE_DROPPED;
    }
}

unsigned session_open(struct session *s, size_t frame, size_t payload, uint8_t framing, enum kind kind, size_t room) {
    unsigned number = (unsigned)sizes_broken(frame, payload);
    memset(s, 0, sizeof *s);
    if (number == 0 && room < frame)
        number = 47;
    if (number) {
        s->closed = 1;
        return number;
    }
    s->frame = frame;
    s->payload = payload;
    s->framing = framing;
    s->kind = kind;
    return 0;
}

struct answer session_take(struct session *s, uint8_t *buffer, size_t room, const uint8_t *t, size_t n) {
    struct answer a = {0};
    a.refused = take_refusal(s, room, n);
    if (a.refused)
        return a;
    if (n == 0) {
        s->taken++;
        s->idle++;
        a.fate = FATE_IDLE;
        return a;
    }
    a.number = unreadable(s, t, n);
    if (!a.number && !by_eof(s) && s->phase == UNDER && s->fid != (t[1] & 1) && s->fault == DELIVERED && s->bytes != 0) {
        a.handed = 1;
        whole(s, &a);
        return a;
    }
    s->taken++;
    if (a.number) {
        post(s, UNREADABLE, n);
        spoil(s);
        a.fate = FATE_UNREADABLE;
        return a;
    }
    post(s, HEADERS, t[0]);
    readable(s, buffer, t, t + t[0], n - t[0], &a);
    return a;
}

struct answer session_lost(struct session *s) {
    struct answer a = {0};
    a.refused = lost_refusal(s);
    if (a.refused)
        return a;
    s->taken++;
    s->lost++;
    spoil(s);
    return a;
}

struct answer session_close(struct session *s) {
    struct answer a = {0};
    a.refused = close_refusal(s);
    if (a.refused)
        return a;
    a.ended = end(s, CUT);
    s->phase = PAST;
    s->closed = 1;
    return a;
}
