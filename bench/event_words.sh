#!/usr/bin/env bash
# What an atomic add costs in a word that others' words stand beside, in one cache line, and in one that stands apart: a plain
# program of 1, 4 and 8 threads, each adding to a word of its own. In the table of spans the words that count each worker's
# allocations stand side by side, eight to a line. Wants gcc; prints three rounds.
set -eu
room=$(mktemp -d)
trap 'rm -rf "$room"' EXIT
cat > "$room/adds.c" <<'C'
#include <pthread.h>
#include <stdatomic.h>
#include <stdint.h>
#include <stdio.h>
#include <stdlib.h>
#include <time.h>

enum { ADDS = 5000000, MOST = 8 };
static _Atomic uint64_t *words;
static int apart;

static void *add(void *number)
{
    for (int i = 0; i < ADDS; i++)
        atomic_fetch_add(&words[(intptr_t)number * apart], 1);
    return 0;
}

static double run(int threads, int words_apart)
{
    pthread_t all[MOST];
    struct timespec from, to;
    apart = words_apart;
    clock_gettime(CLOCK_MONOTONIC, &from);
    for (intptr_t i = 0; i < threads; i++)
        pthread_create(&all[i], 0, add, (void *)i);
    for (int i = 0; i < threads; i++)
        pthread_join(all[i], 0);
    clock_gettime(CLOCK_MONOTONIC, &to);
    return ((to.tv_sec - from.tv_sec) * 1e9 + (to.tv_nsec - from.tv_nsec)) / ADDS;
}

int main(void)
{
    words = aligned_alloc(4096, 4096);
    for (int round = 0; round < 3; round++) {
        double four = run(4, 16), near_four = run(4, 1), eight = run(8, 16), near_eight = run(8, 1);
        printf("one thread %.1f ns; four apart %.1f, side by side %.1f (%.1f times); eight apart %.1f, side by side %.1f (%.1f times)\n",
               run(1, 16), four, near_four, near_four / four, eight, near_eight, near_eight / eight);
    }
}
C
gcc -O2 -pthread "$room/adds.c" -o "$room/adds"
"$room/adds"
