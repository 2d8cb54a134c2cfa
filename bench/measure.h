/*
 * What the C benchmarks share: the clock, the rounds and the fixed inputs.
 *
 * The inputs are those of the lower tree of test case 2 of RFC 8554, so that
 * the root of the tree of height 5 is a published value, and a message of the
 * 64 bytes 00 01 02 .. 3f.  Every LM-OTS and LMS measure uses leaf 4.
 */
#ifndef MEASURE_H
#define MEASURE_H

#include <stdint.h>
#include <stdio.h>
#include <stdlib.h>
#include <time.h>

#define LEAF 4u
#define MESSAGE_LEN 64u
#define LONG_LEN (1u << 20)

static const uint8_t input_I[16] = {
    0x21, 0x5f, 0x83, 0xb7, 0xcc, 0xb9, 0xac, 0xbc,
    0xd0, 0x8d, 0xb9, 0x7b, 0x0d, 0x04, 0xdc, 0x2b};

static const uint8_t input_seed[32] = {
    0xa1, 0xc4, 0x69, 0x6e, 0x26, 0x08, 0x03, 0x5a,
    0x88, 0x61, 0x00, 0xd0, 0x5c, 0xd9, 0x99, 0x45,
    0xeb, 0x33, 0x70, 0x73, 0x18, 0x84, 0xa8, 0x23,
    0x5e, 0x2f, 0xb3, 0xd4, 0xd7, 0x1f, 0x25, 0x47};

/* Byte i of the buffer is i modulo 256. */
static void fill_counting(uint8_t *buffer, size_t len)
{
    for (size_t i = 0; i < len; i++)
        buffer[i] = (uint8_t)i;
}

static double now_ns(void)
{
    struct timespec t;
    clock_gettime(CLOCK_MONOTONIC, &t);
    return (double)t.tv_sec * 1e9 + (double)t.tv_nsec;
}

/* A piece of work: do the thing `repeats` times. */
typedef void work_fn(long repeats);

struct measure {
    const char *name;
    work_fn *work;
    double parts;   /* what one repeat is divided by, 1 for most */
    long repeats;   /* repeats in a round */
    double best;    /* nanoseconds of one part */
};

/* A round lasts about this long, or one repeat where that takes longer. */
#define ROUND_NS 50e6

static double timed(work_fn *work, long repeats)
{
    double start = now_ns();
    work(repeats);
    return now_ns() - start;
}

/* How many rounds: 5, or what the environment variable BENCH_ROUNDS says. */
static int count_rounds(void)
{
    const char *text = getenv("BENCH_ROUNDS");
    int given = text ? atoi(text) : 0;
    return given > 0 ? given : 5;
}

/*
 * Finds how many repeats fill a round, for every measure, and then goes
 * through all measures once for every round, so that the rounds of a measure
 * are spread over the whole time: another program that is busy for a while
 * then spoils one round of many measures, not all rounds of one.
 */
static void measure_all(struct measure *list, size_t count)
{
    int rounds = count_rounds();
    for (size_t i = 0; i < count; i++) {
        struct measure *m = &list[i];
        double spent;
        m->repeats = 1;
        while ((spent = timed(m->work, m->repeats)) < ROUND_NS / 2)
            m->repeats *= 2;
        m->best = spent / (double)m->repeats / m->parts;
    }
    /* Finding the repeats was the first round. */
    for (int r = 1; r < rounds; r++) {
        for (size_t i = 0; i < count; i++) {
            struct measure *m = &list[i];
            double spent = timed(m->work, m->repeats);
            double each = spent / (double)m->repeats / m->parts;
            if (each < m->best)
                m->best = each;
        }
    }
}

static void print_ns(const char *prefix, const char *name, double ns)
{
    printf("%s%s %.4f\n", prefix, name, ns);
    fflush(stdout);
}

static void print_hex(const char *prefix, const char *name,
                      const uint8_t *bytes, size_t len)
{
    printf("%s%s ", prefix, name);
    for (size_t i = 0; i < len; i++)
        printf("%02x", bytes[i]);
    printf("\n");
    fflush(stdout);
}

static void fail(const char *what)
{
    fprintf(stderr, "FAILED: %s\n", what);
    exit(1);
}

#endif
