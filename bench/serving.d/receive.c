/* Receives RTP packets, and tells how late they were beside the earliest of their stream, by the system's own moments.
 *   receive PORT PEERS TICKS_A_SECOND [UNIT_MS]
 * Listens on PORT + 2 * i for each of the peers, says so, and receives until its input ends. Prints how many packets
 * came in how many streams, how many were missing between them, and the lateness in microseconds: the middle, 99 %,
 * 99.9 % and the greatest. A stream is told by the port that it comes from; its packets are a unit apart, of 20 ms without a word. */
#define _GNU_SOURCE
#include <arpa/inet.h>
#include <netinet/in.h>
#include <poll.h>
#include <stdint.h>
#include <stdio.h>
#include <stdlib.h>
#include <string.h>
#include <sys/epoll.h>
#include <sys/socket.h>
#include <time.h>
#include <unistd.h>

enum { BATCH = 64, PACKET = 256, STREAMS = 65536, MOST = 8000000, BUFFER = 8 << 20 };

typedef struct {
    uint16_t port;
    uint32_t timestamp;
    double at;
} Arrival;

typedef struct {
    long count, missing;
    uint32_t first, last;
    double earliest;
} Stream;

static Arrival *arrivals;
static long count;
static Stream streams[STREAMS];

static void bind_to(int port, int poll) {
    struct sockaddr_in address = {.sin_family = AF_INET, .sin_port = htons(port)};
    int fd = socket(AF_INET, SOCK_DGRAM | SOCK_NONBLOCK, 0), size = BUFFER, on = 1;
    address.sin_addr.s_addr = htonl(INADDR_LOOPBACK);
    if (setsockopt(fd, SOL_SOCKET, SO_RCVBUFFORCE, &size, sizeof size))
        setsockopt(fd, SOL_SOCKET, SO_RCVBUF, &size, sizeof size);
    setsockopt(fd, SOL_SOCKET, SO_TIMESTAMPNS, &on, sizeof on);
    if (fd < 0 || bind(fd, (struct sockaddr *)&address, sizeof address)) {
        perror("receive");
        exit(1);
    }
    struct epoll_event event = {.events = EPOLLIN, .data.fd = fd};
    epoll_ctl(poll, EPOLL_CTL_ADD, fd, &event);
}

/* Takes all that has come to one socket. */
static void take(int fd) {
    static uint8_t packets[BATCH][PACKET], controls[BATCH][64];
    static struct sockaddr_in from[BATCH];
    struct iovec parts[BATCH];
    struct mmsghdr messages[BATCH];
    int got;
    do {
        for (int i = 0; i < BATCH; i++) {
            parts[i] = (struct iovec){packets[i], PACKET};
            messages[i].msg_hdr = (struct msghdr){
                .msg_name = &from[i], .msg_namelen = sizeof from[i],
                .msg_iov = &parts[i], .msg_iovlen = 1,
                .msg_control = controls[i], .msg_controllen = sizeof controls[i],
            };
        }
        got = recvmmsg(fd, messages, BATCH, 0, 0);
        for (int i = 0; i < got && count < MOST; i++) {
            struct cmsghdr *control = CMSG_FIRSTHDR(&messages[i].msg_hdr);
            if (!control)
                continue;
            struct timespec time;
            memcpy(&time, CMSG_DATA(control), sizeof time);
            uint8_t *it = packets[i];
            uint32_t timestamp = (uint32_t)it[4] << 24 | it[5] << 16 | it[6] << 8 | it[7];
            arrivals[count++] = (Arrival){ntohs(from[i].sin_port), timestamp, time.tv_sec + time.tv_nsec / 1e9};
        }
    } while (got == BATCH);
}

static int ascending(const void *left, const void *right) {
    float a = *(const float *)left, b = *(const float *)right;
    return (a > b) - (a < b);
}

/* The second at which a packet would have come, were all of its stream on time from the first. */
static double base(Arrival *it, double ticks) {
    return it->at - (uint32_t)(it->timestamp - streams[it->port].first) / ticks;
}

static void tell(double ticks, long step) {
    long present = 0, missing = 0;
    float *late = malloc((count + 1) * sizeof *late);
    for (long i = 0; i < count; i++) {
        Arrival *it = &arrivals[i];
        Stream *stream = &streams[it->port];
        if (!stream->count++) {
            present++;
            stream->first = it->timestamp;
            stream->earliest = it->at;
        } else
            missing += (uint32_t)(it->timestamp - stream->last) / step - 1;
        stream->last = it->timestamp;
        if (base(it, ticks) < stream->earliest)
            stream->earliest = base(it, ticks);
    }
    for (long i = 0; i < count; i++)
        late[i] = (base(&arrivals[i], ticks) - streams[arrivals[i].port].earliest) * 1e6;
    qsort(late, count, sizeof *late, ascending);
    if (!count)
        return;
    printf("%ld %ld %ld ", count, present, missing);
    printf("%.0f %.0f ", late[count / 2], late[count * 99 / 100]);
    printf("%.0f %.0f\n", late[count * 999 / 1000], late[count - 1]);
}

int main(int words_count, char **words) {
    if (words_count != 4 && words_count != 5)
        return 2;
    int poll_all = epoll_create1(0), is_over = 0;
    double ticks = atof(words[3]), unit_ms = words_count == 5 ? atof(words[4]) : 20;
    arrivals = malloc(MOST * sizeof *arrivals);
    for (int i = 0; i < atoi(words[2]); i++)
        bind_to(atoi(words[1]) + 2 * i, poll_all);
    puts("receive: listening");
    fflush(stdout);
    struct epoll_event events[BATCH];
    while (!is_over) {
        int ready = epoll_wait(poll_all, events, BATCH, 100);
        for (int i = 0; i < ready; i++)
            take(events[i].data.fd);
        struct pollfd input = {0, POLLIN, 0};
        char byte;
        is_over = poll(&input, 1, 0) > 0 && read(0, &byte, 1) <= 0;
    }
    tell(ticks, ticks * unit_ms / 1000);
    return 0;
}
