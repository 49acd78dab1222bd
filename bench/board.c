/* A 64-bit unit over a buffer of nine bytes a word, beside plain C over the same layout, in one run: writes, reads of clean words, reads of
   words with one wrong cell. */
#include "plain.h"
#include <stdio.h>
#include <string.h>
#include <time.h>

uint8_t edc_write64(uint8_t *bytes, size_t length, uint16_t place, uint64_t data);
uint8_t edc_read64(uint8_t *bytes, size_t length, uint16_t place, uint64_t *data, uint32_t *log);

typedef uint8_t (*writer)(uint8_t *, size_t, uint16_t, uint64_t);
typedef uint8_t (*reader)(uint8_t *, size_t, uint16_t, uint64_t *, uint32_t *);

enum { WORDS = 4096, LENGTH = 9 * WORDS, TURNS = 4000 };
static uint64_t words[WORDS];
static uint8_t buffer[LENGTH], other[LENGTH];
static volatile uint64_t sink;

static uint64_t next(uint64_t *state) {
    *state ^= *state << 13;
    *state ^= *state >> 7;
    *state ^= *state << 17;
    return *state;
}

static double now(void) {
    struct timespec t;
    clock_gettime(CLOCK_MONOTONIC, &t);
    return t.tv_sec * 1e9 + t.tv_nsec;
}

/* Nanoseconds a word. */
static double time_writes(writer write) {
    uint64_t refused = 0;
    double start = now();
    for (int p = 0; p < WORDS; p++)
        refused += write(buffer, LENGTH, (uint16_t)p, words[p]);
    double spent = now() - start;
    sink = refused;
    return spent / WORDS;
}

static double time_reads(reader read) {
    uint64_t all = 0;
    double start = now();
    for (int p = 0; p < WORDS; p++) {
        uint64_t word = 0;
        uint32_t log;
        all += read(buffer, LENGTH, (uint16_t)p, &word, &log);
        all ^= word ^ log;
    }
    double spent = now() - start;
    sink = all;
    return spent / WORDS;
}

static void best(double *least, double spent) {
    if (spent < *least)
        *least = spent;
}

static int report(const char *what, double proved, double plain) {
    printf("%-28s proved %6.2f ns (%.0f million words a second), table-driven C %6.2f ns (%.0f), ratio %.2f\n", what, proved, 1e3 / proved,
           plain, 1e3 / plain, proved / plain);
    return proved / plain > 1.5;
}

/* Every cell of a word flipped, alone and with one more, and a place too far: both must leave the same bytes and answer the same. */
static int wrong(void) {
    int bad = 0;
    for (int p = 0; p < WORDS; p++) {
        bad += edc_write64(buffer, LENGTH, (uint16_t)p, words[p]) != plain_write(other, LENGTH, (uint16_t)p, words[p]);
        int one = p % 72, two = p / 72 % 72;
        buffer[9 * p + one / 8] ^= 1 << one % 8;
        other[9 * p + one / 8] ^= 1 << one % 8;
        if (one != two) {
            buffer[9 * p + two / 8] ^= 1 << two % 8;
            other[9 * p + two / 8] ^= 1 << two % 8;
        }
        uint64_t a = 1, b = 1;
        uint32_t la = 2, lb = 3;
        bad += edc_read64(buffer, LENGTH, (uint16_t)p, &a, &la) != plain_read(other, LENGTH, (uint16_t)p, &b, &lb) || a != b || la != lb;
    }
    uint64_t a = 1, b = 1;
    uint32_t la = 2, lb = 3;
    bad += edc_read64(buffer, LENGTH, WORDS, &a, &la) != plain_read(other, LENGTH, WORDS, &b, &lb) || a != b || la != lb;
    bad += edc_write64(buffer, LENGTH, WORDS, 5) != plain_write(other, LENGTH, WORDS, 5);
    return bad + (memcmp(buffer, other, LENGTH) != 0);
}

int main(void) {
    uint64_t state = UINT64_C(0x9e3779b97f4a7c15);
    plain_setup();
    for (int p = 0; p < WORDS; p++)
        words[p] = next(&state);
    int bad = wrong();
    if (bad) {
        printf("the library and plain C differ %d times\n", bad);
        return 1;
    }
    double written = 1e9, plain_written = 1e9, clean = 1e9, plain_clean = 1e9, single = 1e9, plain_single = 1e9;
    for (int t = 0; t < TURNS; t++) {
        best(&written, time_writes(edc_write64));
        best(&plain_written, time_writes(plain_write));
        best(&clean, time_reads(edc_read64));
        best(&plain_clean, time_reads(plain_read));
    }
    for (int p = 0; p < WORDS; p++) {
        int cell = (int)(next(&state) % 72);
        buffer[9 * p + cell / 8] ^= 1 << cell % 8;
    }
    for (int t = 0; t < TURNS; t++) {
        best(&single, time_reads(edc_read64));
        best(&plain_single, time_reads(plain_read));
    }
    int slow = report("write", written, plain_written);
    slow += report("read, clean words", clean, plain_clean);
    slow += report("read, single errors", single, plain_single);
    return slow != 0;
}
