/* A recorder in C to start from, over libpalkodhen.a: it reads a long trace, as `palkodhen replay` does, offers each
   transfer to a session, writes each frame that is handed out to a file of its own, and prints the ledger.
     host [--sizes FRAME PAYLOAD] TRACE [FOLDER]
   TRACE - is standard input. Without FOLDER no frame is written. Status: 0 the ledger is printed, 1 a bad record or a
   refusal, 2 a wrong call, a file that can't be read or one that can't be written. */
#include <inttypes.h>
#include <stdio.h>
#include <stdlib.h>
#include <string.h>

#include "palkodhen.h"

/* A record of a long trace: kind (0 transfer, 1 lost, 2 close), a zero, a two-byte length, the bytes, zero fill. */
enum { RECORD = 3076, HEAD = 4, MOST = RECORD - HEAD, TRANSFER = 0, LOST = 1, FRAMING = 3, CLOSED = 53 };

static const char *folder;
static uint8_t *buffer;
static size_t room = 61440;

static void fail(const char *what) { perror(what), exit(2); }

/* The frame stands at the buffer's start until the next call. */
static void save(palkodhen_outcome o) {
    static unsigned count;
    char name[4096];
    int n = snprintf(name, sizeof name, "%s/%s-%04u", folder, o.fate == PALKODHEN_STILL ? "still" : "frame", ++count);
    FILE *f = n < (int)sizeof name ? fopen(name, "wb") : NULL;
    if (!f || fwrite(buffer, 1, o.length, f) != o.length || fclose(f))
        fail(name);
}

static size_t length_of(const uint8_t *r) { return (size_t)(r[2] | r[3] << 8); }

static int is_bad(const uint8_t *r, size_t got) {
    if (got != RECORD || r[0] > 2 || r[1] || length_of(r) > MOST || (r[0] != TRANSFER && length_of(r)))
        return 1;
    for (got = HEAD + length_of(r); got < RECORD && !r[got]; got++)
        ;
    return got < RECORD;
}

/* 0, or the number by which the session refuses what the record says */
static uint32_t offer(palkodhen_session *s, const uint8_t *r) {
    palkodhen_outcome o;
    if (r[0] != TRANSFER)
        return r[0] == LOST ? palkodhen_lost(s) : palkodhen_close(s).refused;
    do {
        o = palkodhen_take(s, buffer, room, r + HEAD, length_of(r));
        if (folder && (o.fate == PALKODHEN_DELIVERED || o.fate == PALKODHEN_STILL))
            save(o);
    } while (o.flags & PALKODHEN_OFFER_AGAIN); /* the frame before was handed out, and this transfer was not taken */
    return o.refused;
}

static void print(const palkodhen_ledger *l) {
    static const char *const names[PALKODHEN_ACCOUNTS] = {
        "delivered", "gap",   "error",     "clock", "long",       "cut",    "empty",
        "still",     "mixed", "under way", "stray", "unreadable", "headers"};
    for (int k = 0; k < PALKODHEN_ACCOUNTS; k++)
        printf("%s %" PRIu64 " %" PRIu64 "\n", names[k], l->account[k].count, l->account[k].bytes);
    printf("lost %" PRIu64 "\nidle %" PRIu64 "\nticks %" PRIu64 "\n", l->lost, l->idle, l->ticks);
    printf("backward %" PRIu64 "\nuntimed %" PRIu64 "\n", l->backward, l->untimed);
}

int main(int argc, char **argv) {
    palkodhen_session s;
    palkodhen_ledger ledger;
    uint8_t record[RECORD];
    char words[PALKODHEN_WORDS];
    size_t payload = MOST, got;
    uint32_t number;
    if (argc > 3 && !strcmp(argv[1], "--sizes")) {
        room = strtoul(argv[2], NULL, 10), payload = strtoul(argv[3], NULL, 10);
        argv += 3, argc -= 3;
    }
    if (argc != 2 && argc != 3)
        return fputs("usage: host [--sizes FRAME PAYLOAD] TRACE [FOLDER]\n", stderr), 2;
    folder = argv[2];
    number = palkodhen_open(&s, room, payload, FRAMING, room);
    if (palkodhen_words(number, words, sizeof words))
        return printf("refused %" PRIu32 "\n%s\n", number, words), 1;
    FILE *trace = strcmp(argv[1], "-") ? fopen(argv[1], "rb") : stdin;
    if (!trace || !(buffer = malloc(room)))
        fail(argv[1]);
    for (unsigned long n = 1; (got = fread(record, 1, RECORD, trace)) && !ferror(trace); n++) {
        if (is_bad(record, got) || (number = offer(&s, record)) == CLOSED)
            return printf("bad record %lu\n", n), 1;
        if (number)
            return printf("refused %" PRIu32 " at record %lu\n", number, n), 1;
    }
    if (ferror(trace))
        fail(argv[1]);
    if (palkodhen_read_ledger(&s, &ledger))
        return 1;
    print(&ledger);
    if (fflush(stdout))
        fail("standard output");
    return 0;
}
