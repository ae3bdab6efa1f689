/* Times the proved functions that crates/exports hands to C: taking transfers, against the session in plain C; and reading blocks of three sizes.
   Figures are medians of eleven runs, and the runs alternate. */
#include <stdio.h>
#include <stdlib.h>
#include <string.h>
#include <time.h>

#include "session.h"

/* A slice is handed over as a pointer and a length. */
uint64_t palkodhen_control(const uint8_t *block, size_t length);
uint64_t palkodhen_streaming(const uint8_t *control, size_t control_length, const uint8_t *block, size_t length);
uint64_t palkodhen_take(size_t frame, size_t payload, uint8_t framing, size_t size, uint64_t times, uint8_t *buffer, size_t room,
                        const uint8_t *transfers, size_t length);

/* session.c once more, with memcpy for its copying loop */
unsigned memcpy_open(struct session *s, size_t frame, size_t payload, uint8_t framing, enum kind kind, size_t room);
struct answer memcpy_take(struct session *s, uint8_t *buffer, size_t room, const uint8_t *t, size_t n);

enum { RUNS = 11, FRAME = 1048576, PAYLOAD = 65536, FRAMING = 3, ROUND = 8, SIZE_MOST = 16384, CONTROL_MOST = 4096, STREAMING_MOST = 16384 };

static double now(void) {
    struct timespec t;
    clock_gettime(CLOCK_MONOTONIC, &t);
    return (double)t.tv_sec * 1e9 + (double)t.tv_nsec;
}

static int order(const void *a, const void *b) {
    double x = *(const double *)a, y = *(const double *)b;
    return (x > y) - (x < y);
}

static double median(double *runs) {
    qsort(runs, RUNS, sizeof *runs, order);
    return runs[RUNS / 2];
}

static void fail(const char *what) {
    fprintf(stderr, "bench/speed: %s\n", what);
    exit(1);
}

static uint8_t random_byte(void) {
    static uint64_t state = 1;
    state = state * UINT64_C(6364136223846793005) + UINT64_C(1442695040888963407);
    return (uint8_t)(state >> 33);
}

/* ---- a session */

static uint8_t transfers[ROUND * SIZE_MOST];

static uint64_t ours(size_t size, uint64_t times, uint8_t *buffer) {
    return palkodhen_take(FRAME, PAYLOAD, FRAMING, size, times, buffer, FRAME, transfers, ROUND * size);
}

typedef unsigned opening(struct session *s, size_t frame, size_t payload, uint8_t framing, enum kind kind, size_t room);
typedef struct answer taking(struct session *s, uint8_t *buffer, size_t room, const uint8_t *t, size_t n);

/* inlined where it is used, so that the two functions are called by name */
static inline __attribute__((always_inline)) uint64_t rounds(opening *open, taking *take, size_t size, uint64_t times, uint8_t *buffer) {
    struct session s;
    open(&s, FRAME, PAYLOAD, FRAMING, OLD, FRAME);
    for (uint64_t i = 0; i < times; i++)
        for (size_t at = 0; at < ROUND * size; at += size)
            take(&s, buffer, FRAME, transfers + at, size);
    return s.total[DELIVERED];
}

static uint64_t theirs(size_t size, uint64_t times, uint8_t *buffer) { return rounds(session_open, session_take, size, times, buffer); }

static uint64_t theirs_by_memcpy(size_t size, uint64_t times, uint8_t *buffer) { return rounds(memcpy_open, memcpy_take, size, times, buffer); }

/* Two frames of four transfers each, with a header of 12 bytes (PTS and SCR), a stamp for each frame, and any data. */
static void make_transfers(size_t size) {
    for (size_t k = 0; k < ROUND; k++) {
        uint8_t *t = transfers + k * size;
        for (size_t i = 0; i < size; i++)
            t[i] = random_byte();
        t[0] = 12;
        t[1] = (uint8_t)(0x8C | k / 4 | (k % 4 == 3 ? 2 : 0));
        for (size_t i = 2; i < 6; i++)
            t[i] = (uint8_t)(k / 4 + i);
    }
}

static void session(size_t size) {
    static uint64_t (*const way[3])(size_t, uint64_t, uint8_t *) = {ours, theirs, theirs_by_memcpy};
    static uint8_t buffer[3][FRAME];
    static double runs[3][RUNS];
    double each[3];
    uint64_t times = 64, bytes[3];
    make_transfers(size);
    for (;; times *= 2) {
        double from = now();
        theirs_by_memcpy(size, times, buffer[2]);
        if (now() - from > 2e7)
            break;
    }
    for (int r = 0; r < RUNS; r++)
        for (int w = 0; w < 3; w++) {
            double from = now();
            bytes[w] = way[w](size, times, buffer[w]);
            runs[w][r] = (now() - from) / (double)(times * ROUND);
        }
    if (bytes[0] != times * ROUND * (size - 12) || bytes[1] != bytes[0] || bytes[2] != bytes[0])
        fail("the delivered bytes differ");
    if (memcmp(buffer[0], buffer[1], FRAME) || memcmp(buffer[0], buffer[2], FRAME))
        fail("the frames differ");
    for (int w = 0; w < 3; w++)
        each[w] = median(runs[w]);
    printf("%zu bytes: ours %.0f, C %.0f, ratio %.0f hundredths; C by memcpy %.0f, ratio %.0f hundredths\n", size, each[0], each[1], 100 * each[0] / each[1],
           each[2], 100 * each[0] / each[2]);
}

/* ---- blocks */

static void put16(uint8_t *b, size_t at, size_t n) {
    b[at] = (uint8_t)n;
    b[at + 1] = (uint8_t)(n >> 8);
}

static void put32(uint8_t *b, size_t at, uint32_t n) {
    put16(b, at, n & 0xFFFF);
    put16(b, at + 2, n >> 16);
}

/* an input terminal, which stands first or last, and extension units whose 16 sources all name it */
static size_t make_control(uint8_t *b, size_t entities, size_t size, int last) {
    enum { TERMINAL = 8, SOURCES = 16 };
    size_t units = entities - 1, each = (size - 12 - TERMINAL) / units, head = size - TERMINAL - units * each;
    size_t at = last ? head : head + TERMINAL, terminal = last ? size - TERMINAL : head;
    memset(b, 0, size);
    b[0] = (uint8_t)head;
    b[1] = 0x24;
    b[2] = 1;
    put16(b, 3, 0x0150);
    put16(b, 5, size);
    b[11] = (uint8_t)(head - 12);
    b[terminal] = TERMINAL;
    b[terminal + 1] = 0x24;
    b[terminal + 2] = 2;
    b[terminal + 3] = (uint8_t)entities;
    put16(b, terminal + 4, 0x0400);
    for (size_t i = 0; i < units; i++, at += each) {
        b[at] = (uint8_t)each;
        b[at + 1] = 0x24;
        b[at + 2] = 6;
        b[at + 3] = (uint8_t)(i + 1);
        b[at + 21] = SOURCES;
        memset(b + at + 22, (int)entities, SOURCES);
        b[at + 22 + SOURCES] = (uint8_t)(each - 24 - SOURCES);
    }
    return size;
}

/* an input terminal, and the output terminal 2 that a streaming interface is linked to */
static size_t make_linked(uint8_t *b) {
    static const uint8_t block[29] = {12, 0x24, 1, 0x50, 1, 29, 0, 0, 0, 0, 0, 0, 8, 0x24, 2, 1, 0, 4, 0, 0, 9, 0x24, 3, 2, 1, 1, 0, 1, 0};
    memcpy(b, block, sizeof block);
    return sizeof block;
}

/* MJPEG formats of eight frames each, and in each frame as many intervals as there is room for, the default last */
static size_t make_streaming(uint8_t *b, size_t formats) {
    enum { FRAMES = 8, K = 57, LENGTH = 26 + 4 * K };
    size_t at = 13 + formats;
    memset(b, 0, STREAMING_MOST);
    b[0] = (uint8_t)at;
    b[1] = 0x24;
    b[2] = 1;
    b[3] = (uint8_t)formats;
    b[6] = 0x81;
    b[8] = 2;
    b[12] = 1;
    for (size_t f = 0; f < formats; f++) {
        static const uint8_t format[7] = {11, 0x24, 6, 0, FRAMES, 0, FRAMES};
        memcpy(b + at, format, sizeof format);
        b[at + 3] = (uint8_t)(f + 1);
        at += 11;
        for (size_t n = 1; n <= FRAMES; n++, at += LENGTH) {
            b[at] = LENGTH;
            b[at + 1] = 0x24;
            b[at + 2] = 7;
            b[at + 3] = (uint8_t)n;
            put16(b, at + 5, 1920);
            put16(b, at + 7, 1080);
            put32(b, at + 17, 1920 * 1080 * 2);
            put32(b, at + 21, 333333 + K);
            b[at + 25] = K;
            for (uint32_t k = 1; k <= K; k++)
                put32(b, at + 22 + 4 * k, 333333 + k);
        }
    }
    put16(b, 4, at);
    return at;
}

static uint8_t control[3][CONTROL_MOST], streaming[3][STREAMING_MOST], linked[32];
static size_t control_length[3], streaming_length[3], linked_length;

static uint64_t read_control(int k) { return palkodhen_control(control[k], control_length[k]); }

static uint64_t read_streaming(int k) { return palkodhen_streaming(linked, linked_length, streaming[k], streaming_length[k]); }

static uint64_t read_linked(int k) {
    (void)k;
    return palkodhen_control(linked, linked_length);
}

/* microseconds of one reading, for each of the three blocks */
static void growth(uint64_t (*read)(int), double *each) {
    static double runs[3][RUNS];
    enum { TIMES = 2000 };
    for (int r = 0; r < RUNS; r++)
        for (int k = 0; k < 3; k++) {
            double from = now();
            for (int i = 0; i < TIMES; i++)
                if (read(k))
                    fail("a block is refused");
            runs[k][r] = (now() - from) / TIMES / 1000;
        }
    for (int k = 0; k < 3; k++)
        each[k] = median(runs[k]);
}

static void print(const char *what, const size_t *length, const double *each, int least) {
    for (int k = 0; k < 3; k++)
        printf("%d %s, %zu bytes: %.2f microseconds, %.2f nanoseconds a byte\n", least << k, what, length[k], each[k], 1000 * each[k] / (double)length[k]);
}

static void control_growth(int last) {
    double each[3];
    for (size_t k = 0; k < 3; k++)
        control_length[k] = make_control(control[k], (size_t)8 << k, (size_t)1024 << k, last);
    growth(read_control, each);
    print("entities", control_length, each, 8);
}

static void streaming_growth(void) {
    double each[3], base[3];
    linked_length = make_linked(linked);
    for (size_t k = 0; k < 3; k++)
        streaming_length[k] = make_streaming(streaming[k], (size_t)2 << k);
    growth(read_streaming, each);
    growth(read_linked, base);
    for (int k = 0; k < 3; k++)
        each[k] -= base[k];
    print("frames", streaming_length, each, 16);
}

int main(void) {
    puts("a session, nanoseconds for a transfer of so many bytes");
    session(64);
    session(512);
    session(3072);
    session(16384);
    puts("control blocks: an input terminal first, and units whose 16 sources all name it");
    control_growth(0);
    puts("control blocks: the same with the terminal last. A source is sought in the table from its first place on, so its time grows with the entities, of which there are at\n"
         "most 32; and a round looks for loops for each entity that names a source");
    control_growth(1);
    puts("streaming blocks: frames of 57 intervals, the default last; reading the control block is taken off");
    streaming_growth();
    return 0;
}
