/* The yardstick: sends RTP packets over so many connected UDP sockets, one each unit of time, spread over that: of 172
 * bytes each 20 ms, or of other units.
 *   pacer STREAMS PORT PEERS SECONDS [UNIT_MS OCTETS TICKS]
 * Stream i goes to PORT + 2 * (i % PEERS). Prints how many were sent, how many failed, and the processor time in
 * microseconds. */
#define _GNU_SOURCE
#include <arpa/inet.h>
#include <netinet/in.h>
#include <stdint.h>
#include <stdio.h>
#include <stdlib.h>
#include <string.h>
#include <sys/resource.h>
#include <sys/socket.h>
#include <time.h>
#include <unistd.h>

enum { HEADER = 12, MOST = 1500 };

static int unit_ms = 20, octets = 160, ticks = 160;

static long microseconds(void) {
    struct timespec time;
    clock_gettime(CLOCK_MONOTONIC, &time);
    return time.tv_sec * 1000000 + time.tv_nsec / 1000;
}

static void wait_until(long moment) {
    struct timespec time = {moment / 1000000, moment % 1000000 * 1000};
    while (microseconds() < moment)
        clock_nanosleep(CLOCK_MONOTONIC, TIMER_ABSTIME, &time, 0);
}

static void put(uint8_t *packet, uint32_t stream, uint32_t unit) {
    uint32_t timestamp = unit * ticks;
    packet[0] = 0x80;
    packet[1] = 0;
    packet[2] = unit >> 8;
    packet[3] = unit;
    for (int i = 0; i < 4; i++) {
        packet[4 + i] = timestamp >> (24 - 8 * i);
        packet[8 + i] = stream >> (24 - 8 * i);
    }
    memset(packet + HEADER, unit, octets);
}

int main(int count, char **words) {
    if (count != 5 && count != 8)
        return 2;
    if (count == 8)
        unit_ms = atoi(words[5]), octets = atoi(words[6]), ticks = atoi(words[7]);
    if (unit_ms < 1 || octets < 1 || octets > MOST - HEADER)
        return 2;
    int streams = atoi(words[1]), port = atoi(words[2]), peers = atoi(words[3]), *fds = malloc(streams * sizeof *fds);
    struct sockaddr_in address = {.sin_family = AF_INET};
    address.sin_addr.s_addr = htonl(INADDR_LOOPBACK);
    for (int i = 0; i < streams; i++) {
        fds[i] = socket(AF_INET, SOCK_DGRAM | SOCK_NONBLOCK, 0);
        address.sin_port = htons(port + 2 * (i % peers));
        if (fds[i] < 0 || connect(fds[i], (struct sockaddr *)&address, sizeof address)) {
            perror("pacer");
            return 1;
        }
    }
    uint8_t packet[MOST];
    long began = microseconds() + 100000, slots = atof(words[4]) * 1000, sent = 0, failed = 0;
    for (long slot = 0; slot < slots; slot++) {
        wait_until(began + slot * 1000);
        for (int i = slot % unit_ms; i < streams; i += unit_ms) {
            put(packet, i, slot / unit_ms);
            if (send(fds[i], packet, HEADER + octets, MSG_NOSIGNAL) == HEADER + octets)
                sent++;
            else
                failed++;
        }
    }
    struct rusage spent;
    getrusage(RUSAGE_SELF, &spent);
    long seconds = spent.ru_utime.tv_sec + spent.ru_stime.tv_sec;
    long rest = spent.ru_utime.tv_usec + spent.ru_stime.tv_usec;
    printf("%ld %ld %ld\n", sent, failed, seconds * 1000000 + rest);
    return 0;
}
