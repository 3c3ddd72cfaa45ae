/* The yardstick: makes RTP packets of 160 octets from memory, so many plays of 500 as it is told, and looks at each. It
   does so twice: where the compiler knows that there are 160 octets, and where it doesn't. A second word is the number
   of plays of that second part, where it is another one. */
#include <stdint.h>
#include <stdio.h>
#include <stdlib.h>
#include <string.h>
#include <time.h>

enum { HEADER = 12, OCTETS = 160, UNITS = 500 };

static uint8_t media[UNITS * OCTETS], packet[1416];

static inline void put(uint16_t seq, uint32_t timestamp, uint32_t ssrc, const uint8_t *octets, size_t length) {
    packet[0] = 0x80;
    packet[1] = 0;
    packet[2] = seq >> 8;
    packet[3] = seq;
    for (int i = 0; i < 4; i++) {
        packet[4 + i] = timestamp >> (24 - 8 * i);
        packet[8 + i] = ssrc >> (24 - 8 * i);
    }
    memcpy(packet + HEADER, octets, length);
}

static inline __attribute__((always_inline)) long spent(long plays, size_t length, uint64_t *sum) {
    clock_t start = clock();
    for (long play = 0; play < plays; play++)
        for (uint32_t unit = 0; unit < UNITS; unit++) {
            put(unit, 160 * unit, 1, media + length * unit, length);
            /* Each packet is looked at. */
            __asm__ volatile("" : : "r"(packet) : "memory");
            *sum += packet[3] + packet[HEADER + length - 1];
        }
    return (long)((clock() - start) * (1000000.0 / CLOCKS_PER_SEC));
}

int main(int count, char **words) {
    volatile size_t told = OCTETS;
    long plays = count > 1 ? atol(words[1]) : 1;
    long plays_unknown = count > 2 ? atol(words[2]) : plays;
    uint64_t sum = 0;
    memset(media, 7, sizeof media);
    long known = spent(plays, OCTETS, &sum);
    long unknown = spent(plays_unknown, told, &sum);
    printf("%llu %ld %ld\n", (unsigned long long)sum, known, unknown);
    return 0;
}
