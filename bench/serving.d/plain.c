/* The yardstick: a plain server over epoll, edge-triggered, one epoll a thread. It answers OPTIONS, SETUP over the
 * connection and TEARDOWN with the bytes of the program, and checks nothing: no grammar, no sessions, no limits.
 *   plain PORT THREADS */
#define _GNU_SOURCE
#include <arpa/inet.h>
#include <errno.h>
#include <netinet/in.h>
#include <netinet/tcp.h>
#include <pthread.h>
#include <stdatomic.h>
#include <stdio.h>
#include <stdlib.h>
#include <string.h>
#include <sys/epoll.h>
#include <sys/socket.h>
#include <unistd.h>

#define METHODS "OPTIONS, DESCRIBE, SETUP, PLAY, PAUSE, TEARDOWN, GET_PARAMETER, SET_PARAMETER"
#define MEDIA "Accept-Ranges: npt\r\nMedia-Properties: Random-Access=0.020, Immutable, Unlimited\r\n" \
    "Media-Range: npt=0.000-900.000\r\n"

enum { PIECE = 4096, PIECES = 16, GATHERED = 32768, EVENTS = 256 };

typedef struct {
    int fd, held;
    char bytes[2 * PIECE];
} Connection;

static int listener;
static atomic_ulong sessions;

/* Writes the answer to one request, and returns its length. */
static int answer(const char *request, int length, char *out) {
    const char *cseq = memmem(request, length, "CSeq: ", 6);
    int digits = 0;
    cseq = cseq ? cseq + 6 : "0\r";
    while (cseq[digits] != '\r')
        digits++;
    if (request[0] == 'O')
        return sprintf(out, "RTSP/2.0 200 OK\r\nCSeq: %.*s\r\nPublic: " METHODS "\r\n\r\n", digits, cseq);
    if (request[0] == 'T')
        return sprintf(out, "RTSP/2.0 200 OK\r\nCSeq: %.*s\r\n\r\n", digits, cseq);
    unsigned long id = atomic_fetch_add(&sessions, 1);
    return sprintf(out, "RTSP/2.0 200 OK\r\nCSeq: %.*s\r\nSession: %032lx;timeout=86400\r\n"
        "Transport: RTP/AVP/TCP;unicast;interleaved=0-1;ssrc=%08lx\r\n" MEDIA "\r\n", digits, cseq, id, id & ~0u);
}

/* Answers each request that is whole, and keeps the rest. Returns how many bytes are to be written. */
static int answer_all(Connection *it, char *out) {
    char *at = it->bytes, *end = it->bytes + it->held;
    int length = 0;
    for (char *stop; (stop = memmem(at, end - at, "\r\n\r\n", 4)); at = stop + 4)
        length += answer(at, stop + 4 - at, out + length);
    it->held = end - at;
    memmove(it->bytes, at, it->held);
    return length;
}

static void visit(Connection *it, char *out) {
    long length = 0;
    int is_over = 0;
    for (int i = 0; i < PIECES && !is_over; i++) {
        long got = recv(it->fd, it->bytes + it->held, PIECE, 0);
        if (got < 0 && errno == EAGAIN)
            break;
        is_over = got <= 0;
        if (!is_over) {
            it->held += got;
            length += answer_all(it, out + length);
        }
        if (length > GATHERED) {
            is_over |= send(it->fd, out, length, MSG_NOSIGNAL) != length;
            length = 0;
        }
    }
    if (length && send(it->fd, out, length, MSG_NOSIGNAL) != length)
        is_over = 1;
    if (is_over) {
        close(it->fd);
        free(it);
    }
}

static void accept_all(int poll) {
    for (int fd; (fd = accept4(listener, 0, 0, SOCK_NONBLOCK)) >= 0;) {
        Connection *it = malloc(sizeof *it);
        int on = 1;
        it->fd = fd;
        it->held = 0;
        setsockopt(fd, IPPROTO_TCP, TCP_NODELAY, &on, sizeof on);
        struct epoll_event event = {.events = EPOLLIN | EPOLLRDHUP | EPOLLET, .data.ptr = it};
        epoll_ctl(poll, EPOLL_CTL_ADD, fd, &event);
    }
}

static void *lane(void *unused) {
    int poll = epoll_create1(0);
    /* A piece of the smallest requests has answers of some twenty times its bytes. */
    char *out = malloc(GATHERED + 64 * PIECE);
    struct epoll_event events[EVENTS], mine = {.events = EPOLLIN | EPOLLET | EPOLLEXCLUSIVE, .data.ptr = 0};
    epoll_ctl(poll, EPOLL_CTL_ADD, listener, &mine);
    for (;;) {
        int ready = epoll_wait(poll, events, EVENTS, -1);
        for (int i = 0; i < ready; i++)
            if (events[i].data.ptr)
                visit(events[i].data.ptr, out);
            else
                accept_all(poll);
    }
    return unused;
}

int main(int count, char **words) {
    if (count != 3)
        return 2;
    struct sockaddr_in address = {.sin_family = AF_INET, .sin_port = htons(atoi(words[1]))};
    int on = 1;
    address.sin_addr.s_addr = htonl(INADDR_LOOPBACK);
    listener = socket(AF_INET, SOCK_STREAM | SOCK_NONBLOCK, 0);
    setsockopt(listener, SOL_SOCKET, SO_REUSEADDR, &on, sizeof on);
    if (bind(listener, (struct sockaddr *)&address, sizeof address) || listen(listener, 4096)) {
        perror("plain");
        return 1;
    }
    puts("plain: listening");
    fflush(stdout);
    pthread_t thread;
    for (int i = 1; i < atoi(words[2]); i++)
        pthread_create(&thread, 0, lane, 0);
    lane(0);
}
