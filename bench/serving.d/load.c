/* Clients for bench/serving. Each prints one line of numbers; a client that can't go on says why, with status 1.
 *   options PORT CONNECTIONS DEPTH SECONDS   each connection has so many OPTIONS under way: how many were answered
 *   cycles PORT CONNECTIONS SECONDS [RATE]   each sets up a track over itself and tears down, all together so often a
 *                                            second at most: how many times
 *   renewals PORT CONNECTIONS SECONDS        each has a session and renews it, one request after another: how many times
 *   plays PORT DEPTH SECONDS                 one connection has so many PLAYs of its session under way: how many were
 *                                            answered 200, and how many otherwise
 *   guesses PORT CONNECTIONS EACH SECONDS [RATE]
 *                                            each gives so many wrong answers to what it is asked, and begins anew, all
 *                                            together so many a second at most: how many were refused
 *   fresh PORT TIMES                         from the start of a new connection to its answer: the middle, 99 % and
 *                                            the greatest, in microseconds
 *   idle PORT COUNT                          opens so many, says so, and holds them until its input ends */
#define _GNU_SOURCE
#include <arpa/inet.h>
#include <netinet/in.h>
#include <netinet/tcp.h>
#include <stdio.h>
#include <stdlib.h>
#include <string.h>
#include <sys/epoll.h>
#include <sys/socket.h>
#include <time.h>
#include <unistd.h>

#define OPTIONS "OPTIONS * RTSP/2.0\r\nCSeq: 1\r\n\r\n"
#define SETUP "SETUP rtsp://h/tone/a RTSP/2.0\r\nCSeq: 1\r\nTransport: RTP/AVP/TCP;unicast;interleaved=0-1\r\n\r\n"
#define TEARDOWN "TEARDOWN rtsp://h/tone RTSP/2.0\r\nCSeq: 2\r\nSession: %.32s\r\n\r\n"
#define UDP_SETUP "SETUP rtsp://h/tone/a RTSP/2.0\r\nCSeq: 1\r\nTransport: RTP/AVP;unicast;dest_addr=\":9\"/\":9\"\r\n\r\n"
#define RENEWAL "GET_PARAMETER rtsp://h/tone RTSP/2.0\r\nCSeq: 3\r\nSession: %.32s\r\n\r\n"
#define PLAY "PLAY rtsp://h/tone RTSP/2.0\r\nCSeq: 4\r\nSession: %.32s\r\nRange: npt=0-\r\n\r\n"

#define DESCRIBE "DESCRIBE rtsp://h/tone RTSP/2.0\r\nCSeq: 5\r\n"
#define GUESS DESCRIBE "Authorization: Digest username=\"ann\", realm=\"rtspd\", nonce=\"%.32s\", uri=\"rtsp://h/tone\", " \
              "algorithm=SHA-256, response=\"%064d\", qop=auth, nc=00000001, cnonce=\"c\"\r\n\r\n"

enum { MOST = 20000, ANSWER = 1024, REQUEST = 512, EVENTS = 256 };

typedef struct {
    int fd, length, is_set_up;
    long left;
    char answer[ANSWER + 1], request[REQUEST];
} Connection;

static int port;
static char block[1 << 16], piece[1 << 20];

static void fail(const char *why) {
    perror(why);
    exit(1);
}

static double now(void) {
    struct timespec time;
    clock_gettime(CLOCK_MONOTONIC, &time);
    return time.tv_sec + time.tv_nsec / 1e9;
}

static int dial(void) {
    struct sockaddr_in address = {.sin_family = AF_INET, .sin_port = htons(port)};
    int fd = socket(AF_INET, SOCK_STREAM, 0), on = 1;
    address.sin_addr.s_addr = htonl(INADDR_LOOPBACK);
    if (fd < 0 || connect(fd, (struct sockaddr *)&address, sizeof address))
        fail("connect");
    setsockopt(fd, IPPROTO_TCP, TCP_NODELAY, &on, sizeof on);
    return fd;
}

static void put(int fd, const char *bytes, long count) {
    if (send(fd, bytes, count, MSG_NOSIGNAL) != count)
        fail("send");
}

/* How long the answer to an OPTIONS is. */
static long length_of_answer(void) {
    int fd = dial();
    put(fd, OPTIONS, sizeof OPTIONS - 1);
    long length = 0;
    do {
        long count = recv(fd, piece + length, 4096, 0);
        if (count <= 0)
            fail("no answer");
        length += count;
    } while (!memmem(piece, length, "\r\n\r\n", 4));
    close(fd);
    return length;
}

/* The connections, and an epoll of them. */
static Connection *open_all(int count, int *poll) {
    Connection *all = calloc(count, sizeof *all);
    *poll = epoll_create1(0);
    for (int i = 0; i < count; i++) {
        all[i].fd = dial();
        struct epoll_event event = {.events = EPOLLIN, .data.ptr = &all[i]};
        epoll_ctl(*poll, EPOLL_CTL_ADD, all[i].fd, &event);
    }
    return all;
}

static long options(int count, int depth, double seconds) {
    long answer = length_of_answer(), done = 0, size = depth * (sizeof OPTIONS - 1);
    int poll;
    Connection *all = open_all(count, &poll);
    for (int i = 0; i < depth; i++)
        memcpy(block + i * (sizeof OPTIONS - 1), OPTIONS, sizeof OPTIONS - 1);
    for (int i = 0; i < count; i++) {
        all[i].left = depth * answer;
        put(all[i].fd, block, size);
    }
    struct epoll_event events[EVENTS];
    for (double end = now() + seconds; now() < end;) {
        int ready = epoll_wait(poll, events, EVENTS, 100);
        for (int i = 0; i < ready; i++) {
            Connection *it = events[i].data.ptr;
            long got = recv(it->fd, piece, sizeof piece, MSG_DONTWAIT);
            if (got <= 0 || got > it->left)
                fail("an answer");
            it->left -= got;
            if (it->left == 0) {
                done += depth;
                it->left = depth * answer;
                put(it->fd, block, size);
            }
        }
    }
    return done;
}

/* Takes what has come for a cycle; true where it has ended. */
static int cycled(Connection *it) {
    long got = recv(it->fd, it->answer + it->length, ANSWER - it->length, MSG_DONTWAIT);
    if (got <= 0)
        fail("an answer");
    it->length += got;
    it->answer[it->length] = 0;
    if (!strstr(it->answer, "\r\n\r\n"))
        return 0;
    if (memcmp(it->answer, "RTSP/2.0 200", 12)) {
        fprintf(stderr, "%s", it->answer);
        exit(1);
    }
    it->length = 0;
    it->is_set_up = !it->is_set_up;
    if (!it->is_set_up) {
        put(it->fd, SETUP, sizeof SETUP - 1);
        return 1;
    }
    char text[256];
    int length = snprintf(text, sizeof text, TEARDOWN, strstr(it->answer, "Session: ") + 9);
    put(it->fd, text, length);
    return 0;
}

/* Waits until so many are due at a rate, where there is one. */
static void hold_back(long done, double rate, double began) {
    double early = rate ? began + done / rate - now() : 0;
    if (early > 0)
        usleep(early * 1e6);
}

static long cycles(int count, double seconds, double rate) {
    int poll;
    long done = 0;
    Connection *all = open_all(count, &poll);
    for (int i = 0; i < count; i++)
        put(all[i].fd, SETUP, sizeof SETUP - 1);
    struct epoll_event events[EVENTS];
    double began = now();
    while (now() < began + seconds) {
        int ready = epoll_wait(poll, events, EVENTS, 100);
        for (int i = 0; i < ready; i++)
            done += cycled(events[i].data.ptr);
        hold_back(done, rate, began);
    }
    return done;
}

/* Sets up a session and keeps what is to be asked of it. */
static void set_up(Connection *it, const char *setup, const char *request) {
    put(it->fd, setup, strlen(setup));
    do {
        long got = recv(it->fd, it->answer + it->length, ANSWER - it->length, 0);
        if (got <= 0)
            fail("an answer");
        it->length += got;
        it->answer[it->length] = 0;
    } while (!strstr(it->answer, "\r\n\r\n"));
    if (memcmp(it->answer, "RTSP/2.0 200", 12)) {
        fprintf(stderr, "%s", it->answer);
        exit(1);
    }
    it->length = 0;
    snprintf(it->request, sizeof it->request, request, strstr(it->answer, "Session: ") + 9);
}

static long renewals(int count, double seconds) {
    int poll;
    long done = 0;
    Connection *all = open_all(count, &poll);
    for (int i = 0; i < count; i++)
        set_up(&all[i], SETUP, RENEWAL);
    for (int i = 0; i < count; i++)
        put(all[i].fd, all[i].request, strlen(all[i].request));
    struct epoll_event events[EVENTS];
    for (double end = now() + seconds; now() < end;) {
        int ready = epoll_wait(poll, events, EVENTS, 100);
        for (int i = 0; i < ready; i++) {
            Connection *it = events[i].data.ptr;
            long got = recv(it->fd, it->answer, ANSWER, MSG_DONTWAIT);
            if (got < 16 || memcmp(it->answer, "RTSP/2.0 200", 12) || memcmp(it->answer + got - 4, "\r\n\r\n", 4))
                fail("an answer");
            done++;
            put(it->fd, it->request, strlen(it->request));
        }
    }
    return done;
}

static void plays(int depth, double seconds) {
    int poll;
    Connection *it = open_all(1, &poll);
    set_up(it, UDP_SETUP, PLAY);
    long size = strlen(it->request), under_way = 0, kept = 0, accepted = 0, refused = 0;
    for (double end = now() + seconds; now() < end;) {
        for (; under_way < depth; under_way++)
            put(it->fd, it->request, size);
        long got = recv(it->fd, piece + kept, sizeof piece - kept, 0);
        if (got <= 0)
            fail("an answer");
        char *begin = piece, *stop = piece + kept + got;
        for (char *at; (at = memmem(begin, stop - begin, "\r\n\r\n", 4)); begin = at + 4, under_way--)
            memcmp(begin, "RTSP/2.0 200", 12) ? refused++ : accepted++;
        kept = stop - begin;
        memmove(piece, begin, kept);
    }
    printf("%ld %ld\n", accepted, refused);
}

/* A new connection, which asks for what it is to prove. */
static void begin_guessing(Connection *it, int poll) {
    struct epoll_event event = {.events = EPOLLIN, .data.ptr = it};
    *it = (Connection){.fd = dial()};
    epoll_ctl(poll, EPOLL_CTL_ADD, it->fd, &event);
    put(it->fd, DESCRIBE "\r\n", sizeof DESCRIBE + 1);
}

/* Takes what has come of the challenge, and once that is whole gives so many wrong answers. */
static void guess(Connection *it, long got, int each) {
    if (it->length + got > ANSWER)
        fail("a challenge");
    memcpy(it->answer + it->length, piece, got);
    it->length += got;
    it->answer[it->length] = 0;
    if (!strstr(it->answer, "\r\n\r\n"))
        return;
    char *nonce = strstr(it->answer, "nonce=\"");
    if (!nonce)
        fail("nothing is to be proved");
    int size = snprintf(it->request, REQUEST, GUESS, nonce + 7, 0);
    for (int i = 0; i < each; i++)
        memcpy(block + i * size, it->request, size);
    put(it->fd, block, (long)each * size);
    it->left = each;
    it->length = 0;
}

/* How many answers have ended in what came. The length is how much there is of an end. */
static long refused(Connection *it, long got) {
    long count = 0;
    if (memmem(piece, got, "RTSP/2.0 200", 12))
        fail("a wrong answer is let through");
    for (long i = 0; i < got; i++) {
        it->length = piece[i] == "\r\n\r\n"[it->length] ? it->length + 1 : piece[i] == '\r';
        count += it->length == 4;
        it->length %= 4;
    }
    it->left -= count;
    return count;
}

static long guesses(int count, int each, double seconds, double rate) {
    int poll = epoll_create1(0);
    long done = 0;
    struct linger reset = {1, 0};
    struct epoll_event events[EVENTS];
    Connection *all = calloc(count, sizeof *all);
    for (int i = 0; i < count; i++)
        begin_guessing(&all[i], poll);
    double began = now();
    while (now() < began + seconds) {
        int ready = epoll_wait(poll, events, EVENTS, 100);
        for (int i = 0; i < ready; i++) {
            Connection *it = events[i].data.ptr;
            long got = recv(it->fd, piece, sizeof piece, MSG_DONTWAIT);
            if (got <= 0)
                fail("an answer");
            if (!it->left) {
                guess(it, got, each);
                continue;
            }
            done += refused(it, got);
            if (!it->left) {
                /* A reset leaves the port to others. */
                setsockopt(it->fd, SOL_SOCKET, SO_LINGER, &reset, sizeof reset);
                close(it->fd);
                begin_guessing(it, poll);
            }
        }
        hold_back(done, rate, began);
    }
    return done;
}

static int ascending(const void *left, const void *right) {
    double a = *(const double *)left, b = *(const double *)right;
    return (a > b) - (a < b);
}

static void fresh(int times) {
    long answer = length_of_answer();
    double *took = calloc(times, sizeof *took);
    for (int i = 0; i < times; i++) {
        double began = now();
        int fd = dial();
        put(fd, OPTIONS, sizeof OPTIONS - 1);
        for (long left = answer; left > 0;) {
            long got = recv(fd, piece, left, 0);
            if (got <= 0)
                fail("an answer");
            left -= got;
        }
        took[i] = (now() - began) * 1e6;
        close(fd);
        usleep(1000);
    }
    qsort(took, times, sizeof *took, ascending);
    printf("%.0f %.0f %.0f\n", took[times / 2], took[times * 99 / 100], took[times - 1]);
}

int main(int count, char **words) {
    if (count < 4)
        return 2;
    port = atoi(words[2]);
    int number = atoi(words[3]);
    if (!strcmp(words[1], "options") && count == 6)
        printf("%ld\n", options(number, atoi(words[4]), atof(words[5])));
    else if (!strcmp(words[1], "cycles") && (count == 5 || count == 6))
        printf("%ld\n", cycles(number, atof(words[4]), count == 6 ? atof(words[5]) : 0));
    else if (!strcmp(words[1], "renewals") && count == 5)
        printf("%ld\n", renewals(number, atof(words[4])));
    else if (!strcmp(words[1], "plays") && count == 5)
        plays(number, atof(words[4]));
    else if (!strcmp(words[1], "guesses") && (count == 6 || count == 7) && atoi(words[4]) * REQUEST <= (int)sizeof block)
        printf("%ld\n", guesses(number, atoi(words[4]), atof(words[5]), count == 7 ? atof(words[6]) : 0));
    else if (!strcmp(words[1], "fresh") && count == 4)
        fresh(number);
    else if (!strcmp(words[1], "idle") && count == 4) {
        for (int i = 0; i < number && i < MOST; i++)
            dial();
        printf("%d\n", number);
        fflush(stdout);
        while (read(0, piece, sizeof piece) > 0)
            ;
    } else
        return 2;
    return 0;
}
