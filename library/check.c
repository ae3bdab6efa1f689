/* Asks each function of palkodhen.h the question that a program of this repository answers, and prints its answer in
   that program's words, as far as C is told it: library/check compares the two. The arguments are those of `palkodhen
   describe` and `palkodhen setup`, with the class's numbers for a setting and a request; `send PAYLOAD FILE` cuts a
   file into transfers and puts it together again. */
#include <stdio.h>
#include <stdlib.h>
#include <string.h>

#include "palkodhen.h"

enum { FILES = 3, MOST = 65536 };

static uint8_t bytes[FILES][MOST];
static size_t length[FILES];
static char words[PALKODHEN_WORDS];

static void load(int k, const char *name) {
    FILE *f = fopen(name, "rb");
    if (!f)
        exit(2);
    length[k] = fread(bytes[k], 1, MOST, f);
    fclose(f);
}

static int said(uint32_t number, size_t offset) {
    if (!number)
        return 0;
    printf("refused %u at %zu\n", number, offset);
    if (palkodhen_words(number, words, sizeof words) != strlen(words))
        exit(2);
    puts(words);
    return 1;
}

static int control(void) {
    palkodhen_verdict v = palkodhen_control(bytes[0], length[0]);
    palkodhen_entity e;
    if (said(v.number, v.offset))
        return 1;
    uint16_t revision = palkodhen_revision(bytes[0], length[0]);
    printf("accepted\nrevision %x.%x\nclock %u\n", revision >> 8, revision >> 4 & 15, palkodhen_clock(bytes[0], length[0]));
    for (size_t k = 0; (e = palkodhen_entity_at(bytes[0], length[0], k)).there; k++)
        printf("entity %u %u %u %u\n", e.id, e.kind, e.terminal, e.offset);
    return 0;
}

static int map(uint8_t id) {
    uint8_t bits[32];
    palkodhen_bits m = palkodhen_controls(bytes[0], length[0], id, bits);
    if (said(m.number, m.offset))
        return 1;
    printf("controls");
    for (uint32_t i = 0; i < m.length; i++)
        printf(" %u", bits[i]);
    putchar('\n');
    return 0;
}

static int streaming(void) {
    palkodhen_verdict v = palkodhen_streaming(bytes[0], length[0], bytes[1], length[1]);
    palkodhen_format f;
    palkodhen_frame p;
    if (said(v.number, v.offset))
        return 1;
    puts("accepted");
    for (size_t k = 0; (f = palkodhen_format_at(bytes[0], length[0], bytes[1], length[1], k)).there; k++)
        printf("format %u %u %u %u %u %u\n", f.kind, f.guid, f.bits, f.frames, f.default_frame, f.offset);
    for (size_t k = 0; (p = palkodhen_frame_at(bytes[0], length[0], bytes[1], length[1], k)).there; k++)
        printf("frame %u %u %u %u %u %u\n", p.format, p.width, p.height, p.size, p.interval, p.intervals);
    return 0;
}

/* the fields, after they were written and read once more */
static int probe(void) {
    static const char *const name[] = {"hint", "format", "frame", "interval", "key rate", "P rate", "quality", "window",
        "delay", "frame size", "payload size", "clock", "framing", "preferred", "minimum", "maximum version", "usage",
        "luma depth", "settings", "reference frames", "rate modes"};
    uint16_t revision = palkodhen_revision(bytes[0], length[0]);
    palkodhen_probe p, q;
    uint32_t word[sizeof p / sizeof(uint32_t)];
    uint8_t room[48];
    palkodhen_verdict v = palkodhen_probe_check(bytes[0], length[0], bytes[1], length[1], bytes[2], length[2]);
    if (said(v.number, v.offset))
        return 1;
    if (palkodhen_probe_read(&p, bytes[2], length[2], revision).number || palkodhen_probe_write(&p, room, sizeof room, revision).number)
        return 2;
    if (memcmp(room, bytes[2], length[2]) || palkodhen_probe_read(&q, room, length[2], revision).number || memcmp(&p, &q, sizeof p))
        return 2;
    q.format = 256;
    v = palkodhen_probe_write(&q, room, sizeof room, revision);
    if (v.number != PALKODHEN_UNKNOWN || v.offset != 1 || memcmp(room, bytes[2], length[2]))
        return 2;
    memcpy(word, &p, sizeof p);
    puts("accepted");
    for (size_t k = 0; k < sizeof name / sizeof *name; k++)
        printf("%s %u\n", name[k], word[k]);
    printf("layout");
    for (int k = 0; k < 8; k++)
        printf(" %u", p.layout[k]);
    putchar('\n');
    return 0;
}

static void settings(uint8_t number) {
    palkodhen_setting s;
    for (size_t k = 0; (s = palkodhen_setting_at(bytes[0], length[0], number, k)).there; k++)
        printf("setting %u %u\n", s.number, s.bytes);
}

static int configuration(void) {
    palkodhen_verdict v = palkodhen_configuration(bytes[0], length[0]);
    palkodhen_block b;
    if (said(v.number, v.offset))
        return 1;
    puts("accepted");
    for (size_t k = 0; palkodhen_block_at(bytes[0], length[0], k, &b); k++) {
        printf("%s %u %u %u", k ? "streaming" : "control", (unsigned)b.interface_number, (unsigned)b.offset, (unsigned)b.length);
        if (k)
            printf(" %u", (unsigned)b.endpoint);
        putchar('\n');
        if (k)
            settings((uint8_t)b.interface_number);
    }
    return 0;
}

static int setting(uint8_t number, uint32_t payload) {
    palkodhen_picked p = palkodhen_pick(bytes[0], length[0], number, payload);
    if (said(p.number, p.offset))
        return 1;
    printf("setting %u %u\n", p.setting, p.bytes);
    return 0;
}

/* the packet; and it is read back as what it was built for */
static int build(uint8_t number, uint8_t unit, uint8_t selector, uint8_t request) {
    uint8_t packet[8];
    palkodhen_verdict v = palkodhen_setup(bytes[0], length[0], number, unit, selector, request, packet, sizeof packet);
    if (said(v.number, v.offset))
        return 1;
    palkodhen_asked a = palkodhen_setup_read(bytes[0], length[0], number, packet, sizeof packet);
    if (a.number || a.unit != unit || a.setting != selector || a.request != request)
        return 2;
    printf("packet");
    for (int i = 0; i < 8; i++)
        printf(" %u", packet[i]);
    putchar('\n');
    return 0;
}

static int nearest(uint8_t selector, int minimum, int maximum, int step, int wanted) {
    palkodhen_moved m = palkodhen_nearest(selector, (uint16_t)minimum, (uint16_t)maximum, (uint16_t)step, (uint16_t)wanted);
    if (said(m.number, 0))
        return 1;
    printf("number %d\n", selector == PALKODHEN_BRIGHTNESS || selector == PALKODHEN_HUE ? (int16_t)m.word : (int)m.word);
    return 0;
}

/* two frames of the file's bytes, without a stamp and with one */
static int sent(size_t payload) {
    static uint8_t room[MOST], whole[MOST];
    palkodhen_sender s;
    palkodhen_sent t;
    palkodhen_send_open(&s);
    for (uint8_t stamped = 0; stamped < 2; stamped++) {
        size_t n = 0, header = stamped ? 6 : 2;
        while ((t = palkodhen_send(&s, bytes[0], length[0], payload, stamped, 7, room, sizeof room)).length) {
            if (room[0] != header || (room[1] & 1) != stamped)
                return 2;
            memcpy(whole + n, room + header, t.length - header);
            n += t.length - header;
        }
        if (said(t.number, 0))
            return 1;
        if (n != length[0] || memcmp(whole, bytes[0], n) || palkodhen_send_next(&s))
            return 2;
        printf("sent %zu\n", n);
    }
    s.fid = 2;
    return palkodhen_send(&s, bytes[0], length[0], payload, 0, 0, room, sizeof room).number == PALKODHEN_UNKNOWN ? 0 : 2;
}

int main(int argc, char **argv) {
    const char *what = argc > 1 ? argv[1] : "";
    int number[8] = {0};
    for (int k = 2; k < argc && k < 8; k++)
        number[k] = atoi(argv[k]);
    if (!strcmp(what, "nearest"))
        return nearest((uint8_t)number[2], number[3], number[4], number[5], number[6]);
    if (!strcmp(what, "send")) {
        load(0, argv[3]);
        return sent((size_t)number[2]);
    }
    int files = !strcmp(what, "probe") ? 3 : !strcmp(what, "streaming") ? 2 : 1;
    if (argc < 2 + files)
        return 2;
    for (int k = 0; k < files; k++)
        load(k, argv[2 + k]);
    return !strcmp(what, "control")         ? control()
           : !strcmp(what, "map")           ? map((uint8_t)number[3])
           : !strcmp(what, "streaming")     ? streaming()
           : !strcmp(what, "probe")         ? probe()
           : !strcmp(what, "configuration") ? configuration()
           : !strcmp(what, "setting")       ? setting((uint8_t)number[3], (uint32_t)number[4])
           : !strcmp(what, "build")         ? build((uint8_t)number[3], (uint8_t)number[4], (uint8_t)number[5], (uint8_t)number[6])
                                            : 2;
}
