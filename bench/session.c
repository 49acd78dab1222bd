/* A script of 4,096 bytes run a thousand times through the library and through plain C, in turns, in one run. */
#include "session.h"
#include "plain.h"
#include <stdio.h>
#include <string.h>
#include <time.h>

typedef uint8_t (*session)(const uint8_t *, size_t, uint8_t *, size_t, size_t *, size_t *);

enum { LENGTH = 4096, ROOM = 65536, RUNS = 1000, TURN = 10 };
static uint8_t script[LENGTH + 1], out[ROOM], other[ROOM];

static double now(void) {
    struct timespec t;
    clock_gettime(CLOCK_MONOTONIC, &t);
    return t.tv_sec * 1e9 + t.tv_nsec;
}

/* All eight lines over and over, with flips that are put right, that are refused, and that are mended, and lines that are refused; then line feeds. */
static void write_script(void) {
    size_t at = 0;
    for (unsigned i = 0;; i++) {
        char block[400];
        unsigned p = i * 37 % 128, cell = i * 29 % 72;
        int n = snprintf(block, sizeof block,
                         "W %04x %08x%08x\nI %04x %02x\nR %04x\nL\nS %04x\nI %04x %02x\nI %04x 47\nR %04x\nM %04x %02x %016x\nF\n"
                         "W %04x %016x\nM %04x %02x %08x00000000\nR %04x\nR %04x\nC\nR %04X \n",
                         p, i * 2654435761u, i * 40503u + 17, p, cell, p, p, p, cell, p, p, p, 255 - i % 256, i, p, i + 1, p, i * 7 % 256,
                         i * 77777, p, p + 100, p);
        if (at + (size_t)n > LENGTH)
            break;
        memcpy(script + at, block, (size_t)n);
        at += (size_t)n;
    }
    memset(script + at, '\n', LENGTH - at);
}

static double time_turn(session run, size_t *lines) {
    size_t written;
    double start = now();
    for (int r = 0; r < TURN; r++)
        run(script, LENGTH, out, ROOM, lines, &written);
    return now() - start;
}

/* Scripts of every length up to the longest and one more, with little room and with much. */
static int wrong(void) {
    int bad = 0;
    for (size_t length = 0; length <= LENGTH + 1; length++)
        for (size_t room = 0; room <= ROOM; room += room < 64 ? 1 : 65472) {
            size_t la = 1, lb = 2, wa = 3, wb = 4;
            if (room % 7 != length % 7 && room != ROOM)
                continue;
            memset(out, '#', ROOM);
            memset(other, '#', ROOM);
            uint8_t a = edc_session(script, length, out, room, &la, &wa), b = plain_session(script, length, other, room, &lb, &wb);
            bad += a != b || la != lb || wa != wb || memcmp(out, other, ROOM) != 0;
        }
    return bad;
}

int main(void) {
    plain_setup();
    write_script();
    int bad = wrong();
    if (bad) {
        printf("the library and plain C differ %d times\n", bad);
        return 1;
    }
    double proved = 0, plain = 0, best_proved = 1e18, best_plain = 1e18;
    size_t lines = 0;
    for (int t = 0; t < RUNS / TURN; t++) {
        double a = time_turn(edc_session, &lines), b = time_turn(plain_session, &lines);
        proved += a;
        plain += b;
        best_proved = a < best_proved ? a : best_proved;
        best_plain = b < best_plain ? b : best_plain;
    }
    printf("%d runs of a script of %d bytes and %zu lines\n", RUNS, LENGTH, lines);
    printf("%-28s proved %6.2f million lines a second, plain C %6.2f, ratio %.2f\n", "session, all runs", 1e3 * lines * RUNS / proved,
           1e3 * lines * RUNS / plain, proved / plain);
    printf("%-28s proved %6.2f million lines a second, plain C %6.2f, ratio %.2f\n", "session, best turn", 1e3 * lines * TURN / best_proved,
           1e3 * lines * TURN / best_plain, best_proved / best_plain);
    return 0;
}
