/* Writes a trace of N records: frames of one to five transfers with stamps, and now and then a stray, an error, or a transfer that is idle, lost or
   unreadable. The same N gives the same trace. */
#include <stdint.h>
#include <stdio.h>
#include <stdlib.h>
#include <string.h>

static uint64_t state = 1;

static unsigned below(unsigned n) {
    state = state * UINT64_C(6364136223846793005) + UINT64_C(1442695040888963407);
    return (unsigned)(state >> 33) % n;
}

int main(int argc, char **argv) {
    long left = argc > 1 ? atol(argv[1]) : 0;
    uint32_t stamp = 0xFFF00000u;
    unsigned fid = 0, of = 5, at = 0;
    while (left-- > 0) {
        uint8_t r[64] = {0};
        unsigned odd = below(400);
        if (odd == 0) {
            r[0] = 1;
        } else if (odd == 1) {
            r[1] = 1;
            r[2] = 12;
        } else if (odd > 3) {
            unsigned n = at + 1 == of ? 12 + below(51) : 62;
            r[1] = (uint8_t)n;
            r[2] = 12;
            r[3] = (uint8_t)(0x8C | fid | (at + 1 == of ? 2 : 0) | (odd == 4 ? 0x40 : 0));
            for (int i = 0; i < 4; i++)
                r[4 + i] = (uint8_t)(stamp >> 8 * i);
            for (unsigned i = 8; i < n; i++)
                r[2 + i] = (uint8_t)below(256);
            if (at + 1 < of) {
                at++;
            } else if (odd != 5) {
                at = 0;
                of = 1 + below(5);
                fid ^= 1;
                stamp += 1601600;
            }
        }
        fwrite(r, 1, sizeof r, stdout);
    }
    return 0;
}
