/* A host in plain C over libpalkodhen.a: it makes one call a transfer, or one call for the packets of a URB, to the proved session (crates/host_session) or to the session in plain C; and it
   reads a block or a whole configuration by the proved readers (crates/host_camera, host_configuration). For bench/instructions, which counts a run of it and takes another off.
     host ours SIZE CALLS, host plain SIZE CALLS      so many transfers of SIZE bytes, four to a frame; prints the bytes delivered
     host packets SIZE URBS, host packets-plain SIZE URBS      so many URBs of 32 packets of SIZE bytes, all of one frame; prints the bytes of the frame under way
     host control FILE TIMES, streaming, configuration      a control block or a webcam's configuration, read so many times; prints the number of a refusal, or 0 */
#include <stdio.h>
#include <stdlib.h>
#include <string.h>

#include "../library/palkodhen.h"
#include "session.h"

enum { FRAME = 1048576, PAYLOAD = 65536, FRAMING = 3, HEADER = 12, OF = 4, PACKETS = 32, SIZE_MOST = 16384, FILE_MOST = 65536 };

static uint8_t transfers[2 * OF][SIZE_MOST], urb[PACKETS * SIZE_MOST], buffer[FRAME], bytes[FILE_MOST];
static uint32_t lengths[PACKETS];

/* Two frames, each with a FID and a stamp of its own; the data is zero. The header has PTS and SCR. */
static void make_transfers(void) {
    for (int k = 0; k < 2 * OF; k++) {
        transfers[k][0] = HEADER;
        transfers[k][1] = (uint8_t)(0x8C | k / OF | (k % OF == OF - 1 ? 2 : 0));
        transfers[k][2] = (uint8_t)(k / OF);
    }
}

static uint64_t ours(size_t size, long calls) {
    static palkodhen_session s;
    uint64_t delivered = 0;
    palkodhen_open(&s, FRAME, PAYLOAD, FRAMING, FRAME);
    for (long i = 0; i < calls; i++)
        delivered += palkodhen_take(&s, buffer, FRAME, transfers[i % (2 * OF)], size).length;
    return delivered;
}

static uint64_t plain(size_t size, long calls) {
    static struct session s;
    uint64_t delivered = 0;
    session_open(&s, FRAME, PAYLOAD, FRAMING, OLD, FRAME);
    for (long i = 0; i < calls; i++)
        delivered += session_take(&s, buffer, FRAME, transfers[i % (2 * OF)], size).length;
    return delivered;
}

/* Packets of one frame, which does not end. */
static void make_urb(size_t size) {
    for (int k = 0; k < PACKETS; k++) {
        lengths[k] = (uint32_t)size;
        memcpy(urb + (size_t)k * size, transfers[0], HEADER);
    }
}

static uint64_t packets(size_t size, long urbs) {
    static palkodhen_session s;
    static palkodhen_ledger l;
    size_t taken = PACKETS;
    make_urb(size);
    palkodhen_open(&s, FRAME, PAYLOAD, FRAMING, FRAME);
    for (long i = 0; i < urbs && taken == PACKETS; i++)
        palkodhen_take_packets(&s, buffer, FRAME, urb, PACKETS * size, size, lengths, PACKETS, &taken);
    palkodhen_read_ledger(&s, &l);
    return l.account[PALKODHEN_ACCOUNT_UNDER_WAY].bytes;
}

static uint64_t packets_plain(size_t size, long urbs) {
    static struct session s;
    make_urb(size);
    session_open(&s, FRAME, PAYLOAD, FRAMING, OLD, FRAME);
    for (long i = 0; i < urbs; i++)
        for (int k = 0; k < PACKETS; k++)
            if (session_take(&s, buffer, FRAME, urb + (size_t)k * size, lengths[k]).fate != FATE_KEPT)
                return 0;
    return s.bytes;
}

/* where the block of the first interface of this subclass of video is (1 control, 2 streaming), and its length; a file that starts with a header is a block */
static const uint8_t *block(size_t length, int subclass, size_t *n) {
    int found = bytes[1] == 0x24;
    for (size_t at = 0; at < length && bytes[at]; at += bytes[at]) {
        const uint8_t *d = bytes + at;
        if (d[1] == 4)
            found = d[5] == 14 && d[6] == subclass;
        if (found && d[1] == 0x24) {
            *n = (size_t)(subclass == 1 ? d[5] | d[6] << 8 : d[4] | d[5] << 8);
            return d;
        }
    }
    fprintf(stderr, "bench/host: no such block\n");
    exit(1);
}

static uint64_t read_file(const char *what, size_t length, long times) {
    size_t n = 0, m = 0;
    uint64_t number = 0;
    const uint8_t *control = block(length, 1, &n), *streaming = strcmp(what, "streaming") ? control : block(length, 2, &m);
    for (long i = 0; i < times; i++)
        number = (what[0] == 's'   ? palkodhen_streaming(control, n, streaming, m)
                  : what[3] == 't' ? palkodhen_control(control, n)
                                   : palkodhen_configuration(bytes, length))
                     .number;
    return number;
}

int main(int argc, char **argv) {
    if (argc != 4)
        return 2;
    long times = atol(argv[3]);
    uint64_t said;
    make_transfers();
    size_t size = (size_t)atol(argv[2]);
    if (!strcmp(argv[1], "ours")) {
        said = ours(size, times);
    } else if (!strcmp(argv[1], "plain")) {
        said = plain(size, times);
    } else if (!strcmp(argv[1], "packets")) {
        said = packets(size, times);
    } else if (!strcmp(argv[1], "packets-plain")) {
        said = packets_plain(size, times);
    } else {
        FILE *f = fopen(argv[2], "rb");
        if (!f)
            return 2;
        said = read_file(argv[1], fread(bytes, 1, sizeof bytes, f), times);
    }
    /* sixteen digits, whatever the number is: printing costs the same */
    for (int k = 60; k >= 0; k -= 4)
        putchar("0123456789abcdef"[said >> k & 15]);
    putchar('\n');
    return 0;
}
