/* Tells the records of stories as crates/replay_events does, written apart from it, from
   docs/RULES.md alone, with the C compiler's floats: its output is that program's expected output.

   gcc -O0 -ffp-contract=off -o /tmp/expected tools/expected_records.c
   /tmp/expected < crates/replay_events/stdin > crates/replay_events/stdout */
#include <math.h>
#include <stdint.h>
#include <stdio.h>
#include <string.h>

static uint32_t pick_h, lifted, sum, pick_f, tension, length;

static float of_bits(uint32_t b) { float f; memcpy(&f, &b, 4); return f; }

static uint32_t to_bits(float f) {
    uint32_t b;
    if (isnan(f)) return 0x7fc00000u;
    memcpy(&b, &f, 4);
    return b;
}

static uint32_t rotl(uint32_t x, int k) { return (x << k) | (x >> (32 - k)); }

static uint32_t next(uint32_t p) { return p >= 999999 ? 999999 : p + 1; }

static void floats(float t, float l) { tension = to_bits(t); length = to_bits(l); }

int main(void) {
    char line[200];
    unsigned a, l, w, x, y;
    pick_h = lifted = sum = pick_f = tension = length = 0;
    while (fgets(line, sizeof line, stdin)) {
        if (line[0] == '\n') {
            printf("harness %u %u %08x\nfeed %u %08x %08x\n", pick_h, lifted, sum, pick_f, tension, length);
            pick_h = lifted = sum = pick_f = tension = length = 0;
        } else if (sscanf(line, "worked %u", &w) == 1) {
            volatile float more = (float)(w % 1024) * 0.25f;
            volatile float longer = of_bits(length) + more;
            pick_h = next(pick_h);
            pick_f = next(pick_f);
            lifted = w % 257;
            floats(of_bits(tension), longer);
        } else if (sscanf(line, "sent %u %u %u", &a, &l, &w) == 3) {
            sum = rotl(sum, 3) ^ w;
        } else if (sscanf(line, "heard %u %u %u", &a, &l, &w) == 3) {
            volatile float slack = of_bits(tension) * 0.5f;
            volatile float tense = slack + (float)(w % 256);
            sum = rotl(sum, 5) ^ w;
            floats(tense, of_bits(length));
        } else if (sscanf(line, "harness %u %u %x", &a, &x, &y) == 3) {
            pick_h = a; lifted = x; sum = y;
        } else if (sscanf(line, "feed %u %x %x", &a, &x, &y) == 3) {
            pick_f = a; tension = x; length = y;
        }
    }
    return 0;
}
