/* Palkodhen: USB Video Class 1.0, 1.1 and 1.5 for a host in C. x86-64, System V.

   libpalkodhen.a needs memcpy, memmove and memset, and nothing else: no heap, no files, no threads, no variables of its
   own. Every function ends, reads and writes only what it is lent, and answers for every input.

   Bytes are lent as a pointer and a length; NULL is right where the length is 0. What is lent to one call must not
   overlap, but for bytes that are only read. A record (a session, a sender, a probe's fields) is the caller's: it is
   aligned as its type is, may be copied and kept, and is for one thread at a time. It is checked on every call: one
   that no call could have left is refused, and never followed. A call that is refused changes nothing that it was
   lent; but palkodhen_open, palkodhen_controls and palkodhen_block_at always write all that they are lent to write,
   and palkodhen_take_packets says in *taken how many packets came before.

   Numbers are document 01's and 02's: 0 is yes, and palkodhen_words says the others. One is ours, PALKODHEN_UNKNOWN.
   Members named `zero` are 0. Each promise here is a theorem of the crate that is named beside it. */
#ifndef PALKODHEN_H
#define PALKODHEN_H

#include <stddef.h>
#include <stdint.h>

#ifdef __cplusplus
#define PALKODHEN_HOLDS(fact) static_assert(fact, #fact)
extern "C" {
#else
#define PALKODHEN_HOLDS(fact) _Static_assert(fact, #fact)
#endif

PALKODHEN_HOLDS(sizeof(size_t) == 8);

/* An argument is none of those that a call knows: a setting, a request or a revision that is none of the class's, a
   probe's word over its field's width (its place is in `offset`), words that no sender has. */
#define PALKODHEN_UNKNOWN 200

/* What a call says: 0, or the number of the first broken rule and the place in the bytes that breaks it. */
typedef struct palkodhen_verdict {
    uint32_t number, zero;
    size_t offset;
} palkodhen_verdict;
PALKODHEN_HOLDS(sizeof(palkodhen_verdict) == 16 && offsetof(palkodhen_verdict, offset) == 8);

/* ==== A session: open, take each transfer, read the ledger, close (crates/host_session) ==== */

/* A session is the caller's, 400 bytes. ledger[] has what is posted, in the places of palkodhen_ledger, its last nine
   words 0; state[] is nobody's business. */
typedef struct palkodhen_session {
    uint64_t ledger[40], state[10];
} palkodhen_session;
PALKODHEN_HOLDS(sizeof(palkodhen_session) == 400 && offsetof(palkodhen_session, state) == 320);

/* What became of a transfer: it is empty; kept, and its frame is under way; behind its frame's end; with it a frame, or
   a still picture, is whole and handed out; with it a frame ended and is not delivered; it can't be read. */
enum {
    PALKODHEN_IDLE = 0,
    PALKODHEN_KEPT = 1,
    PALKODHEN_STRAY = 2,
    PALKODHEN_DELIVERED = 3,
    PALKODHEN_STILL = 4,
    PALKODHEN_DROPPED = 5,
    PALKODHEN_UNREADABLE = 6
};

/* Why a frame is not delivered: a transfer was unreadable or lost; it has the error bit; it has two stamps; its still
   bit changes; it is larger than the frame size; it ended without its end; it has no data. */
enum {
    PALKODHEN_NONE = 0,
    PALKODHEN_GAP = 1,
    PALKODHEN_ERROR = 2,
    PALKODHEN_CLOCK = 3,
    PALKODHEN_MIXED = 4,
    PALKODHEN_LONG = 5,
    PALKODHEN_CUT = 6,
    PALKODHEN_EMPTY = 7
};

/* Bits of `flags`. */
enum { PALKODHEN_HAS_STAMP = 1, PALKODHEN_HAS_LAYER = 2, PALKODHEN_OFFER_AGAIN = 4 };

/* What a call says, in two registers. A call that is refused has its number in `refused`, and all else is 0. */
typedef struct palkodhen_outcome {
    uint8_t refused; /* 0, or the number */
    uint8_t ended;   /* why the call ended a frame before it came to the transfer; PALKODHEN_NONE where it ended none */
    uint8_t fate;    /* of the transfer, PALKODHEN_IDLE to PALKODHEN_UNREADABLE */
    uint8_t detail;  /* dropped: why, PALKODHEN_GAP to PALKODHEN_EMPTY; unreadable: 61 to 67; else 0 */
    uint8_t flags;
    uint8_t zero;
    uint16_t layer;  /* of the frame handed out, with PALKODHEN_HAS_LAYER */
    uint32_t length; /* delivered or still: the frame is buffer[0] to buffer[length - 1] until the next call */
    uint32_t stamp;  /* of the frame handed out, its PTS, with PALKODHEN_HAS_STAMP */
} palkodhen_outcome;
PALKODHEN_HOLDS(sizeof(palkodhen_outcome) == 16 && offsetof(palkodhen_outcome, layer) == 6);
PALKODHEN_HOLDS(offsetof(palkodhen_outcome, length) == 8 && offsetof(palkodhen_outcome, stamp) == 12);

/* The ledger's 320 bytes: a count of frames or transfers and their bytes for each account; transfers reported lost,
   and empty ones; ticks forward between delivered frames that have a stamp, steps backward, frames without a stamp. */
enum {
    PALKODHEN_ACCOUNT_DELIVERED,
    PALKODHEN_ACCOUNT_GAP,
    PALKODHEN_ACCOUNT_ERROR,
    PALKODHEN_ACCOUNT_CLOCK,
    PALKODHEN_ACCOUNT_LONG,
    PALKODHEN_ACCOUNT_CUT,
    PALKODHEN_ACCOUNT_EMPTY,
    PALKODHEN_ACCOUNT_STILL,
    PALKODHEN_ACCOUNT_MIXED,
    PALKODHEN_ACCOUNT_UNDER_WAY,
    PALKODHEN_ACCOUNT_STRAY,
    PALKODHEN_ACCOUNT_UNREADABLE,
    PALKODHEN_ACCOUNT_HEADERS,
    PALKODHEN_ACCOUNTS
};
typedef struct palkodhen_account {
    uint64_t count, bytes;
} palkodhen_account;
typedef struct palkodhen_ledger {
    palkodhen_account account[PALKODHEN_ACCOUNTS];
    uint64_t lost, idle, ticks, backward, untimed, zero[9];
} palkodhen_ledger;
PALKODHEN_HOLDS(sizeof(palkodhen_ledger) == 320 && offsetof(palkodhen_ledger, lost) == 208);

/* The archive's own functions take a session apart: the 31 numbers at its front, and the 19 words behind them. A host
   calls those below, which are made of them and are compiled into the host. */
uint32_t palkodhen_session_open(uint64_t numbers[31], uint64_t words[19], size_t frame, size_t payload, uint8_t framing,
                                size_t room);
uint32_t palkodhen_session_open_vp8(uint64_t numbers[31], uint64_t words[19], size_t frame, size_t payload,
                                    uint8_t framing, size_t room);
palkodhen_outcome palkodhen_session_take(uint64_t numbers[31], uint64_t words[19], uint8_t *buffer, size_t room,
                                         const uint8_t *transfer, size_t length);
palkodhen_outcome palkodhen_session_packets(uint64_t numbers[31], uint64_t words[19], uint8_t *buffer, size_t room,
                                            const uint8_t *bytes, size_t size, size_t stride, const uint32_t *lengths,
                                            size_t packets, uint64_t taken[1]);
uint32_t palkodhen_session_lost(uint64_t numbers[31], uint64_t words[19]);
palkodhen_outcome palkodhen_session_close(uint64_t numbers[31], uint64_t words[19]);
uint32_t palkodhen_session_ledger(const uint64_t numbers[31], const uint64_t words[19], uint64_t to[40]);

/* Opens a session on the frame size and the payload size that were negotiated, and the probe block's framing byte, for
   a buffer of so much room. Bit D1 of that byte says that the camera marks the end of a frame; a host that knows so of
   a camera with D1 clear gives 3. 0; 45 the frame size is 0 or over 16,777,216; 46 the payload size is under 2 or over
   65,536; 47 the room is under the frame size. It always writes all of the session: a refused one leaves a session
   that every other call refuses by 50. */
static inline uint32_t palkodhen_open(palkodhen_session *s, size_t frame, size_t payload, uint8_t framing,
                                      size_t room) {
    uint64_t *w = (uint64_t *)(void *)s;
    return palkodhen_session_open(w, w + 31, frame, payload, framing, room);
}

/* The same for a camera that sends VP8, whose headers are others. */
static inline uint32_t palkodhen_open_vp8(palkodhen_session *s, size_t frame, size_t payload, uint8_t framing,
                                          size_t room) {
    uint64_t *w = (uint64_t *)(void *)s;
    return palkodhen_session_open_vp8(w, w + 31, frame, payload, framing, room);
}

/* Takes one transfer. The buffer has the frame under way: lend the same one each time, and leave it alone between a
   frame's transfers. With PALKODHEN_OFFER_AGAIN the frame before is handed out and the transfer is not taken: save the
   frame, and offer the transfer again. Refused by, in this order: 54 the ledger's last nine words are not 0; 50 the
   session is none that a call could have left; 53 it is closed; 52 it took 4,294,967,295 transfers; 51 the room is
   under the frame size; 55 the transfer has over 65,536 bytes. */
static inline palkodhen_outcome palkodhen_take(palkodhen_session *s, uint8_t *buffer, size_t room,
                                               const uint8_t *transfer, size_t length) {
    uint64_t *w = (uint64_t *)(void *)s;
    return palkodhen_session_take(w, w + 31, buffer, room, transfer, length);
}

/* Takes the packets of one isochronous URB, whose places are a stride apart in the bytes, as palkodhen_take would one
   by one, until one has more to tell than idle or kept: this is its outcome. A packet with a length over the stride,
   or whose bytes are not all lent, is taken for a lost one (so say UINT32_MAX of a packet that failed). *taken is how
   many are done with; one that is refused, or is to be offered again, is not. While *taken is under `packets`, call
   again from there: bytes + *taken * stride, lengths + *taken. Where no packet had more to tell, all of the outcome is
   0 and *taken is `packets`. */
static inline palkodhen_outcome palkodhen_take_packets(palkodhen_session *s, uint8_t *buffer, size_t room,
                                                       const uint8_t *bytes, size_t size, size_t stride,
                                                       const uint32_t *lengths, size_t packets, size_t *taken) {
    uint64_t *w = (uint64_t *)(void *)s, done[1];
    palkodhen_outcome o =
        palkodhen_session_packets(w, w + 31, buffer, room, bytes, size, stride, lengths, packets, done);
    *taken = (size_t)done[0];
    return o;
}

/* Reports that a transfer was lost: 0, or 54, 50, 53, 52. */
static inline uint32_t palkodhen_lost(palkodhen_session *s) {
    uint64_t *w = (uint64_t *)(void *)s;
    return palkodhen_session_lost(w, w + 31);
}

/* Ends the session, and with it a frame under way: of the outcome `ended` alone says why that was not delivered.
   Refused by 54, 50, 53. The ledger can still be read. */
static inline palkodhen_outcome palkodhen_close(palkodhen_session *s) {
    uint64_t *w = (uint64_t *)(void *)s;
    return palkodhen_session_close(w, w + 31);
}

/* The ledger now, with the frame under way in its account: 0, or 54, 50. */
static inline uint32_t palkodhen_read_ledger(const palkodhen_session *s, palkodhen_ledger *to) {
    const uint64_t *w = (const uint64_t *)(const void *)s;
    return palkodhen_session_ledger(w, w + 31, (uint64_t *)(void *)to);
}

/* ==== A camera's blocks (crates/host_camera, host_configuration) ====

   Every question reads the bytes again, 1,400 to 14,000 instructions of our examples, so there is no table to keep or
   to spoil. Where an answer has `there`, it is 1; past the last, and where a block is refused, all of the answer is 0.
   Places are counted from 0: ask for 0, 1, .. until `there` is 0. */

/* A control block (the class-specific descriptors of the VideoControl interface): 0, or 1 to 15. */
palkodhen_verdict palkodhen_control(const uint8_t *control, size_t control_length);

/* A streaming block behind its control block: the control block's own refusal, 0, or 20 to 40. */
palkodhen_verdict palkodhen_streaming(const uint8_t *control, size_t control_length, const uint8_t *block,
                                      size_t length);

/* A terminal or unit: its ID, its descriptor's subtype, its terminal type or 0, and where its descriptor stands. */
typedef struct palkodhen_entity {
    uint8_t there, id, kind, zero;
    uint16_t terminal, offset;
} palkodhen_entity;
PALKODHEN_HOLDS(sizeof(palkodhen_entity) == 8 && offsetof(palkodhen_entity, terminal) == 4);
palkodhen_entity palkodhen_entity_at(const uint8_t *control, size_t control_length, size_t k);

/* dwClockFrequency; 0 where the block is refused. */
uint32_t palkodhen_clock(const uint8_t *control, size_t control_length);

/* bcdUVC, 0x0100, 0x0110 or 0x0150; 0 where the block is refused. */
uint16_t palkodhen_revision(const uint8_t *control, size_t control_length);

/* bmControls of the camera terminal or processing unit that has the ID: how many bytes there are, and these in the
   first of the 32, with 0 behind them. 16: no camera terminal or processing unit has the ID; then, and where the block
   itself is refused, the length and the 32 bytes are 0. */
typedef struct palkodhen_bits {
    uint32_t number, length;
    size_t offset;
} palkodhen_bits;
PALKODHEN_HOLDS(sizeof(palkodhen_bits) == 16 && offsetof(palkodhen_bits, offset) == 8);
palkodhen_bits palkodhen_controls(const uint8_t *control, size_t control_length, uint8_t id, uint8_t bytes[32]);

/* A format: its descriptor's subtype (4 uncompressed, 6 MJPEG, 0x10 frame based), its GUID (1 YUY2, 2 NV12, 3 another,
   0 MJPEG), bits per pixel, how many frames it has, its default frame, and where its descriptor stands. Format k has
   the number k + 1. */
typedef struct palkodhen_format {
    uint8_t there, kind, guid, bits, frames, default_frame;
    uint16_t offset;
} palkodhen_format;
PALKODHEN_HOLDS(sizeof(palkodhen_format) == 8 && offsetof(palkodhen_format, offset) == 6);
palkodhen_format palkodhen_format_at(const uint8_t *control, size_t control_length, const uint8_t *block, size_t length,
                                     size_t k);

/* A frame, counted through all formats: the number of its format and its own under it, how many discrete intervals it
   has (0: a range), its picture, the most bytes of a frame (0 where its descriptor has none), and its default interval
   in units of 100 ns. */
typedef struct palkodhen_frame {
    uint8_t there, format, number, intervals;
    uint16_t width, height;
    uint32_t size, interval;
} palkodhen_frame;
PALKODHEN_HOLDS(sizeof(palkodhen_frame) == 16 && offsetof(palkodhen_frame, width) == 4);
PALKODHEN_HOLDS(offsetof(palkodhen_frame, size) == 8);
palkodhen_frame palkodhen_frame_at(const uint8_t *control, size_t control_length, const uint8_t *block, size_t length,
                                   size_t k);

/* A whole configuration: 0, or 70 to 73, 75, and the numbers of its blocks, at their places in the configuration. */
palkodhen_verdict palkodhen_configuration(const uint8_t *configuration, size_t length);

/* Where the class-specific block at place k lies in a configuration: the control interface's is at 0, behind it are the
   streaming interfaces', in order of appearance. 1, and its interface's number, the endpoint that its header names (0
   of the control interface), its place and its length; 0, and all are 0, past the last and where the configuration is
   refused. */
typedef struct palkodhen_block {
    uint64_t interface_number, endpoint, offset, length;
} palkodhen_block;
PALKODHEN_HOLDS(sizeof(palkodhen_block) == 32);
uint32_t palkodhen_block_at(const uint8_t *configuration, size_t length, size_t k, palkodhen_block *to);

/* An alternate setting of a streaming interface: its number, and its bytes per microframe at the header's endpoint. */
typedef struct palkodhen_setting {
    uint8_t there, number;
    uint16_t zero;
    uint32_t bytes;
} palkodhen_setting;
PALKODHEN_HOLDS(sizeof(palkodhen_setting) == 8 && offsetof(palkodhen_setting, bytes) == 4);
palkodhen_setting palkodhen_setting_at(const uint8_t *configuration, size_t length, uint8_t interface_number, size_t k);

/* The alternate setting with the fewest bytes per microframe that hold the negotiated payload size, the lowest number
   on a tie; 74 where there is none, after the configuration's own numbers. */
typedef struct palkodhen_picked {
    uint16_t number, setting;
    uint32_t bytes;
    size_t offset;
} palkodhen_picked;
PALKODHEN_HOLDS(sizeof(palkodhen_picked) == 16 && offsetof(palkodhen_picked, bytes) == 4);
PALKODHEN_HOLDS(offsetof(palkodhen_picked, offset) == 8);
palkodhen_picked palkodhen_pick(const uint8_t *configuration, size_t length, uint8_t interface_number,
                                uint32_t payload);

/* ==== The probe and commit block: 26, 34 or 48 bytes by the revision (crates/host_probe) ==== */

/* Its fields in the order of the block, each a word; those that the revision lacks are 0. */
typedef struct palkodhen_probe {
    uint32_t hint, format, frame, interval, key_rate, p_rate, quality, window, delay, frame_size, payload_size, clock,
        framing, preferred, minimum, maximum, usage, luma_depth, settings, reference_frames, rate_modes, layout[8];
} palkodhen_probe;
PALKODHEN_HOLDS(sizeof(palkodhen_probe) == 116 && offsetof(palkodhen_probe, layout) == 84);

/* Reads the fields of a block: 41 where it has not the revision's bytes; PALKODHEN_UNKNOWN where the revision is not
   0x0100, 0x0110 or 0x0150. */
palkodhen_verdict palkodhen_probe_read(palkodhen_probe *to, const uint8_t *block, size_t length, uint16_t revision);

/* Writes the fields into the first bytes of the room, as many as the revision says, and no other: 41 where there is
   room for fewer; PALKODHEN_UNKNOWN for such a revision, and for a word that its field does not hold, with the word's
   place, from 0, as the offset. What was written is read back as it was, and what was read is written as it was. */
palkodhen_verdict palkodhen_probe_write(const palkodhen_probe *from, uint8_t *room, size_t length, uint16_t revision);

/* Checks a probe block against a camera's blocks: the control block's own refusal, 41, the streaming block's own, 42 to
   46. The revision is the control block's. */
palkodhen_verdict palkodhen_probe_check(const uint8_t *control, size_t control_length, const uint8_t *block,
                                        size_t length, const uint8_t *probe, size_t probe_length);

/* ==== Camera settings by setup packets of 8 bytes (crates/host_setup) ==== */

/* Settings and requests go by the class's numbers: control selectors, and request codes. */
enum { PALKODHEN_BRIGHTNESS = 0x02, PALKODHEN_CONTRAST = 0x03, PALKODHEN_HUE = 0x06, PALKODHEN_SATURATION = 0x07 };
enum {
    PALKODHEN_SET_CUR = 0x01,
    PALKODHEN_GET_CUR = 0x81,
    PALKODHEN_GET_MIN = 0x82,
    PALKODHEN_GET_MAX = 0x83,
    PALKODHEN_GET_RES = 0x84,
    PALKODHEN_GET_DEF = 0x87
};

/* Builds the packet into the first 8 bytes of the room: PALKODHEN_UNKNOWN, the control block's own refusal, 90, 91,
   94. */
palkodhen_verdict palkodhen_setup(const uint8_t *control, size_t control_length, uint8_t interface_number, uint8_t unit,
                                  uint8_t setting, uint8_t request, uint8_t *packet, size_t room);

/* What a packet asks for: the control block's own refusal, or 95 where it is no packet of this camera and interface. */
typedef struct palkodhen_asked {
    uint32_t number;
    uint8_t unit, setting, request, zero;
    size_t offset;
} palkodhen_asked;
PALKODHEN_HOLDS(sizeof(palkodhen_asked) == 16 && offsetof(palkodhen_asked, unit) == 4);
PALKODHEN_HOLDS(offsetof(palkodhen_asked, offset) == 8);
palkodhen_asked palkodhen_setup_read(const uint8_t *control, size_t control_length, uint8_t interface_number,
                                     const uint8_t *packet, size_t length);

/* A wanted number moved to the nearest allowed one, the lower on a tie: PALKODHEN_UNKNOWN, 92, 93. The numbers are
   words as they stand in the data stage; those of brightness and hue are signed, so that the answer is
   (int16_t)word. */
typedef struct palkodhen_moved {
    uint32_t number, word;
} palkodhen_moved;
PALKODHEN_HOLDS(sizeof(palkodhen_moved) == 8);
palkodhen_moved palkodhen_nearest(uint8_t setting, uint16_t minimum, uint16_t maximum, uint16_t step, uint16_t wanted);

/* ==== A camera of our own: frames cut into transfers, one a call (crates/host_sender) ==== */

/* The FID of the frame, 0 or 1, and how many of its bytes are sent. */
typedef struct palkodhen_sender {
    uint64_t fid, at;
} palkodhen_sender;
PALKODHEN_HOLDS(sizeof(palkodhen_sender) == 16);

/* A fresh sender: its first frame has FID 0. */
void palkodhen_send_open(palkodhen_sender *sender);

/* Writes the frame's next transfer into the room: its length, and 0 after the last. The stamp is that of the frame, and
   stands in every transfer; there is none where `stamped` is 0. 80 the frame has no bytes or over 16,777,216; 81 the
   payload size leaves no room for data or is over 65,536; 82 there is room for fewer bytes than the next transfer has;
   PALKODHEN_UNKNOWN for words that no sender has. */
typedef struct palkodhen_sent {
    uint32_t number, zero;
    size_t length;
} palkodhen_sent;
PALKODHEN_HOLDS(sizeof(palkodhen_sent) == 16 && offsetof(palkodhen_sent, length) == 8);
palkodhen_sent palkodhen_send(palkodhen_sender *sender, const uint8_t *frame, size_t length, size_t payload,
                              uint8_t stamped, uint32_t stamp, uint8_t *room, size_t size);

/* Goes on to the next frame, which has the other FID: 0, or PALKODHEN_UNKNOWN. */
uint32_t palkodhen_send_next(palkodhen_sender *sender);

/* ==== Words (crates/host_words) ==== */

/* A number's words into the room, and a zero behind them: their length without it. 0, and the room as it was, where the
   number has no words, or the room has under PALKODHEN_WORDS bytes. */
#define PALKODHEN_WORDS 72
size_t palkodhen_words(uint32_t number, char *room, size_t size);

#ifdef __cplusplus
}
#endif
#endif
