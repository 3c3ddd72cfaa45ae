/* The yardstick: an array of entries of 72 bytes, so many as it is told and of each turn of sixteen so many of sessions
 * that live. The entries of these are moved together in place. It prints how many are left, and the nanoseconds of
 * processor time, the least of five rounds. */
#include <stdint.h>
#include <stdio.h>
#include <stdlib.h>
#include <time.h>

enum { ROUNDS = 5, TURN = 16, LIVING = 1000 };

struct entry {
    uint64_t actor, session, rest[7];
};

static int64_t now(void) {
    struct timespec time;
    clock_gettime(CLOCK_THREAD_CPUTIME_ID, &time);
    return time.tv_sec * 1000000000ll + time.tv_nsec;
}

static size_t move_together(struct entry *entries, size_t count) {
    size_t left = 0;
    for (size_t i = 0; i < count; i++)
        if (entries[i].session < LIVING)
            entries[left++] = entries[i];
    return left;
}

int main(int words, char **word) {
    size_t count = words > 1 ? atol(word[1]) : 0, live = words > 2 ? atol(word[2]) : 0, left = 0;
    struct entry *entries = malloc(count * sizeof *entries);
    int64_t least = INT64_MAX;
    if (!entries)
        return 1;
    for (int round = 0; round < ROUNDS; round++) {
        for (size_t i = 0; i < count; i++) {
            int lives = i < LIVING || i % TURN < live;
            entries[i] = (struct entry){.session = lives ? i % LIVING : LIVING + i, .rest = {i}};
        }
        int64_t start = now();
        left = move_together(entries, count);
        /* What is left is looked at. */
        __asm__ volatile("" : : "r"(entries) : "memory");
        int64_t spent = now() - start;
        least = spent < least ? spent : least;
    }
    printf("%zu %lld\n", left, (long long)least);
    return 0;
}
