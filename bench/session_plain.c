/* What a session of the library does, in plain C: a 64-bit unit over 128 words, zero stored in each, a script run on it, a line of text for each answer. */
#include "plain.h"
#include "session.h"
#include <string.h>

enum { PLACES = 128, ROOM = 32, LONGEST = 4096 };
enum { PLACE = 1, ENABLE = 3, CELL = 4, TWO = 5, LINE = 8, SPACE = 9 };

struct unit {
    uint64_t data[PLACES];
    uint8_t check[PLACES];
    uint8_t counter, kind, syndrome, taken, first;
    uint8_t taken_check, first_check;
    uint16_t first_place;
    uint64_t first_data;
};

struct call {
    char letter;
    uint16_t place;
    uint8_t lanes_or_cell;
    uint64_t word;
};

static void store(struct unit *u, unsigned place, uint64_t word) {
    u->data[place] = word;
    u->check[place] = table_generate(word);
}

/* 0 and the word, put right, or the number of the refusal. */
static uint8_t take(struct unit *u, uint16_t place, uint64_t *word) {
    uint64_t data = u->data[place];
    uint8_t check = u->check[place], syndrome = table_generate(data) ^ check;
    *word = data;
    uint8_t status = syndrome ? table_decode(word, check) : 0;
    u->taken = 1;
    u->taken_check = check;
    if (syndrome) {
        if (u->counter == 0) {
            u->first = 1;
            u->first_place = place;
            u->first_check = check;
            u->first_data = data;
        }
        u->counter += u->counter < 15;
        u->kind = status ? 1 : 2;
        u->syndrome = syndrome;
    }
    return status;
}

static int digit(uint8_t byte) {
    if (byte >= '0' && byte <= '9')
        return byte - '0';
    if (byte >= 'a' && byte <= 'f')
        return byte - 'a' + 10;
    return -1;
}

/* A blank and so many digits off the front; NULL where they do not stand there. */
static const uint8_t *field(const uint8_t *at, const uint8_t *end, int digits, uint64_t *value) {
    if (!at || end - at < digits + 1 || *at != ' ')
        return NULL;
    uint64_t sum = 0;
    for (int i = 1; i <= digits; i++) {
        int d = digit(at[i]);
        if (d < 0)
            return NULL;
        sum = sum * 16 + (uint64_t)d;
    }
    *value = sum;
    return at + digits + 1;
}

static int parse(const uint8_t *at, const uint8_t *end, struct call *call) {
    uint64_t place = 0, small = 0;
    if (at == end)
        return 0;
    call->letter = (char)*at++;
    switch (call->letter) {
    case 'R':
    case 'S':
        at = field(at, end, 4, &place);
        break;
    case 'W':
        at = field(field(at, end, 4, &place), end, 16, &call->word);
        break;
    case 'M':
        at = field(field(field(at, end, 4, &place), end, 2, &small), end, 16, &call->word);
        break;
    case 'I':
        at = field(field(at, end, 4, &place), end, 2, &small);
        break;
    case 'L':
    case 'F':
    case 'C':
        break;
    default:
        return 0;
    }
    call->place = (uint16_t)place;
    call->lanes_or_cell = (uint8_t)small;
    return at == end;
}

static uint8_t *put_hex(uint8_t *out, int digits, uint64_t value) {
    static const char DIGITS[] = "0123456789abcdef";
    *out++ = ' ';
    while (digits-- > 0)
        *out++ = (uint8_t)DIGITS[value >> 4 * digits & 15];
    return out;
}

static uint8_t *put_text(uint8_t *out, const char *text) {
    size_t length = strlen(text);
    memcpy(out, text, length);
    return out + length;
}

static uint8_t *put_fault(uint8_t *out, uint8_t number, uint16_t place) {
    *out++ = '!';
    out = put_hex(put_hex(put_hex(put_hex(out, 1, number), 4, place), 2, 0), 4, 0);
    *out++ = '\n';
    return out;
}

static uint8_t *put_number(uint8_t *out, int digits, uint64_t value) {
    *out++ = '=';
    out = put_hex(out, digits, value);
    *out++ = '\n';
    return out;
}

static uint8_t merge(struct unit *u, uint16_t place, uint8_t kept, uint64_t word) {
    if (kept == 0) {
        store(u, place, word);
        return 0;
    }
    uint64_t old, mask = 0;
    uint8_t status = take(u, place, &old);
    if (status)
        return status;
    for (int lane = 0; lane < 8; lane++)
        if (kept >> lane & 1)
            mask |= UINT64_C(0xff) << 8 * lane;
    store(u, place, (old & mask) | (word & ~mask));
    return 0;
}

static uint8_t inject(struct unit *u, uint16_t place, uint8_t cell) {
    if (cell >= 72)
        return CELL;
    if (cell < 64)
        u->data[place] ^= UINT64_C(1) << cell;
    else
        u->check[place] ^= (uint8_t)(1 << (cell - 64));
    return 0;
}

static uint32_t log_word(const struct unit *u) {
    return (uint32_t)u->kind << 30 | (uint32_t)u->counter << 24 | (uint32_t)u->syndrome << 16 | (u->taken ? u->taken_check : 0);
}

static void clear(struct unit *u) {
    u->counter = u->kind = u->syndrome = u->taken = u->first = 0;
}

static uint8_t *make(struct unit *u, const struct call *call, uint8_t *out) {
    uint64_t word = call->word;
    uint8_t status = 0;
    switch (call->letter) {
    case 'L':
        return put_number(out, 8, log_word(u));
    case 'F':
        if (!u->first)
            return put_text(out, "none\n");
        *out++ = '=';
        out = put_hex(put_hex(put_hex(out, 4, u->first_place), 2, u->first_check), 16, u->first_data);
        *out++ = '\n';
        return out;
    case 'C':
        clear(u);
        return put_text(out, "ok\n");
    }
    if (call->place >= PLACES)
        return put_fault(out, PLACE, call->place);
    switch (call->letter) {
    case 'R':
        status = take(u, call->place, &word);
        if (status == 0)
            return put_number(out, 16, word);
        break;
    case 'W':
        store(u, call->place, word);
        break;
    case 'M':
        status = merge(u, call->place, call->lanes_or_cell, word);
        break;
    case 'S':
        status = merge(u, call->place, 0xff, 0);
        break;
    case 'I':
        status = inject(u, call->place, call->lanes_or_cell);
        break;
    }
    return status ? put_fault(out, status, call->place) : put_text(out, "ok\n");
}

uint8_t plain_session(const uint8_t *script, size_t length, uint8_t *out, size_t room, size_t *lines, size_t *written) {
    struct unit u;
    uint8_t *at = out;
    *lines = *written = 0;
    if (length > LONGEST)
        return SPACE;
    clear(&u);
    for (unsigned p = 0; p < PLACES; p++)
        store(&u, p, 0);
    const uint8_t *from = script, *end = script + length;
    while (from < end) {
        if (room - (size_t)(at - out) < ROOM) {
            *written = (size_t)(at - out);
            return SPACE;
        }
        const uint8_t *stop = memchr(from, '\n', (size_t)(end - from));
        struct call call;
        if (stop && parse(from, stop, &call))
            at = make(&u, &call, at);
        else
            at = put_fault(at, LINE, 0);
        from = stop ? stop + 1 : end;
        ++*lines;
    }
    *written = (size_t)(at - out);
    return 0;
}
