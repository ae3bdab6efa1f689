/* The ledger program in plain C, unproved, over the session in plain C: the same rules and the same print, to measure against. */
#include <fcntl.h>
#include <stdio.h>
#include <string.h>
#include <unistd.h>

#include "session.h"

enum { FRAME = 256, PAYLOAD = 62, FRAMING = 3, RECORD = 64, INPUT = 65536 };

static const char *const names[ACCOUNTS] = {"delivered", "gap",   "error",     "clock", "long",       "cut",    "empty",
                                            "still",     "mixed", "under way", "stray", "unreadable", "headers"};

static struct session s;
static uint8_t frame[FRAME];

/* the number of the next record, from 1 */
static unsigned long long number(void) { return (unsigned long long)s.taken + 1 + (s.closed != 0); }

static int bad(const uint8_t *r) {
    if (s.closed || r[0] > 2 || r[1] > PAYLOAD || (r[0] != 0 && r[1] != 0))
        return 1;
    for (int i = 2 + r[1]; i < RECORD; i++)
        if (r[i])
            return 1;
    return 0;
}

/* 0, or 1 where a record decides alone */
static int record(const uint8_t *r) {
    if (bad(r)) {
        printf("bad record %llu\n", number());
        return 1;
    }
    struct answer a = r[0] == 0 ? session_take(&s, frame, FRAME, r + 2, r[1]) : r[0] == 1 ? session_lost(&s) : session_close(&s);
    if (a.refused)
        printf("refused %u at record %llu\n", a.refused, number());
    return a.refused != 0;
}

static void print(void) {
    if (s.phase == UNDER) {
        s.count[UNDER_WAY] = 1;
        s.total[UNDER_WAY] = s.bytes;
    }
    for (int i = 0; i < ACCOUNTS; i++)
        printf("%s %llu %llu\n", names[i], (unsigned long long)s.count[i], (unsigned long long)s.total[i]);
    printf("lost %llu\nidle %llu\nticks %llu\nbackward %llu\nuntimed %llu\n", (unsigned long long)s.lost, (unsigned long long)s.idle,
           (unsigned long long)s.ticks, (unsigned long long)s.backward, (unsigned long long)s.untimed);
}

int main(int argc, char **argv) {
    static uint8_t input[INPUT];
    size_t have = 0;
    int fd = argc > 1 ? open(argv[1], O_RDONLY) : 0;
    session_open(&s, FRAME, PAYLOAD, FRAMING, OLD, FRAME);
    for (;;) {
        ssize_t got = read(fd, input + have, INPUT - have);
        if (got < 0) {
            perror(argc > 1 ? argv[1] : "standard input");
            return 1;
        }
        if (got == 0)
            break;
        size_t end = have + (size_t)got, at = 0;
        for (; end - at >= RECORD; at += RECORD)
            if (record(input + at))
                return 0;
        have = end - at;
        memmove(input, input + at, have);
    }
    if (have) {
        printf("bad record %llu\n", number());
        return 0;
    }
    print();
    return 0;
}
