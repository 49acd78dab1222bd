/* The proved library beside plain C, on the same words in one run: check bits, and full decodes of clean words and of single errors. */
#include "plain.h"
#include <stdio.h>
#include <time.h>

uint8_t edc_generate64(uint64_t data);
uint8_t edc_decode64(uint64_t *data, uint8_t check);

enum { WORDS = 65536, ROUNDS = 2, TURNS = 600 };
static uint64_t words[WORDS], stored[WORDS], scratch[WORDS];
static uint8_t checks[WORDS], flipped_checks[WORDS];
static volatile uint64_t sink;

static uint64_t next(uint64_t *state) {
    *state ^= *state << 13;
    *state ^= *state >> 7;
    *state ^= *state << 17;
    return *state;
}

static double now(void) {
    struct timespec t;
    clock_gettime(CLOCK_MONOTONIC, &t);
    return t.tv_sec * 1e9 + t.tv_nsec;
}

/* Nanoseconds a word, for the xor of all check bits. */
static double time_generate(uint8_t (*generate)(uint64_t), int rounds) {
    uint64_t all = 0;
    double start = now();
    for (int r = 0; r < rounds; r++)
        for (int i = 0; i < WORDS; i++)
            all ^= generate(words[i]);
    double spent = now() - start;
    sink = all;
    return spent / rounds / WORDS;
}

/* Nanoseconds a word, the data written back each time. */
static double time_decode(uint8_t (*decode)(uint64_t *, uint8_t), const uint8_t *with, int rounds) {
    uint64_t all = 0;
    double start = now();
    for (int r = 0; r < rounds; r++)
        for (int i = 0; i < WORDS; i++) {
            scratch[i] = stored[i];
            all += decode(&scratch[i], with[i]);
        }
    double spent = now() - start;
    sink = all;
    return spent / rounds / WORDS;
}

/* The two are timed in short turns, and the best time of each counts, so that other work on the machine does not. */
#define BEST(best, measure)                                                                        \
    do {                                                                                           \
        double t = (measure);                                                                      \
        if (t < best)                                                                              \
            best = t;                                                                              \
    } while (0)

static int report(const char *what, double proved, double plain) {
    printf("%-28s proved %6.2f ns, table-driven C %6.2f ns, ratio %.2f\n", what, proved, plain, proved / plain);
    return proved / plain > 1.2;
}

static int wrong(void) {
    int bad = 0;
    for (int i = 0; i < WORDS; i++) {
        uint64_t a = stored[i], b = stored[i];
        bad += edc_generate64(words[i]) != table_generate(words[i]) || bits_generate(words[i]) != checks[i];
        bad += edc_decode64(&a, flipped_checks[i]) != table_decode(&b, flipped_checks[i]) || a != b;
        a = b = words[i];
        bad += edc_decode64(&a, (uint8_t)i) != table_decode(&b, (uint8_t)i) || a != b;
    }
    return bad;
}

int main(void) {
    uint64_t state = UINT64_C(0x9e3779b97f4a7c15);
    plain_setup();
    for (int i = 0; i < WORDS; i++) {
        words[i] = next(&state);
        checks[i] = table_generate(words[i]);
        uint64_t cell = next(&state) % 72;
        stored[i] = cell < 64 ? words[i] ^ UINT64_C(1) << cell : words[i];
        flipped_checks[i] = cell < 64 ? checks[i] : checks[i] ^ 1u << (cell - 64);
    }
    if (wrong()) {
        printf("the library and plain C differ on %d words\n", wrong());
        return 1;
    }
    double made = 1e9, table = 1e9, clean = 1e9, table_clean = 1e9, single = 1e9, table_single = 1e9;
    double bits = 1e9;
    for (int t = 0; t < 20; t++)
        BEST(bits, time_generate(bits_generate, 1));
    for (int t = 0; t < TURNS; t++) {
        BEST(made, time_generate(edc_generate64, ROUNDS));
        BEST(table, time_generate(table_generate, ROUNDS));
        BEST(single, time_decode(edc_decode64, flipped_checks, ROUNDS));
        BEST(table_single, time_decode(table_decode, flipped_checks, ROUNDS));
    }
    for (int i = 0; i < WORDS; i++)
        stored[i] = words[i];
    for (int t = 0; t < TURNS; t++) {
        BEST(clean, time_decode(edc_decode64, checks, ROUNDS));
        BEST(table_clean, time_decode(table_decode, checks, ROUNDS));
    }
    int slow = report("check bits", made, table);
    slow += report("decode, clean words", clean, table_clean);
    slow += report("decode, single errors", single, table_single);
    printf("%-28s per-bit C %.2f ns, %.0f times the library's\n", "check bits", bits, bits / made);
    return slow != 0;
}
