/* Clocks, and the waits of requests, for the clients of the measurements. */
#ifndef WAITS_H
#define WAITS_H
#include <errno.h>
#include <stdint.h>
#include <stdio.h>
#include <stdlib.h>
#include <string.h>
#include <time.h>

/* each wait, in tenths of a microsecond */
static uint32_t *waits;
static size_t waits_size, waits_room;

static void fail(const char *what) {
    fprintf(stderr, "client: %s: %s\n", what, strerror(errno));
    exit(2);
}

static void *grown(void *block, size_t size) {
    if (!(block = realloc(block, size))) fail("memory");
    return block;
}

static uint64_t clock_of(clockid_t clock) {
    struct timespec now;
    if (clock_gettime(clock, &now)) fail("a clock");
    return now.tv_sec * 1000000000ULL + now.tv_nsec;
}

static uint64_t now(void) { return clock_of(CLOCK_MONOTONIC); }

static void note_wait(uint64_t wait) {
    if (waits_size == waits_room) waits = grown(waits, (waits_room = waits_room * 2 + 4096) * sizeof *waits);
    waits[waits_size++] = wait / 100 > UINT32_MAX ? UINT32_MAX : wait / 100;
}

static int by_size(const void *one, const void *other) {
    uint32_t a = *(const uint32_t *)one, b = *(const uint32_t *)other;
    return (a > b) - (a < b);
}

static double part(double share) {
    size_t at = (size_t)(waits_size * share);
    return waits_size ? waits[at < waits_size ? at : waits_size - 1] / 10.0 : 0;
}

/* Writes the members of a report: how many requests were answered in how many seconds of the clock and of processors, and the waits. */
static void report_waits(uint64_t took, uint64_t used) {
    qsort(waits, waits_size, sizeof *waits, by_size);
    printf("\"requests\":%zu,\"seconds\":%.9f,\"processor\":%.9f,\"median\":%.1f,\"p90\":%.1f,\"p99\":%.1f,\"max\":%.1f",
           waits_size, took / 1e9, used / 1e9, part(0.5), part(0.9), part(0.99), part(1));
}

/* Writes ten digits, a number, at a place. */
static void put_digits(char *place, uint64_t number) {
    for (int at = 9; at >= 0; at--, number /= 10) place[at] = '0' + number % 10;
}
#endif
