/* The same code written twice in plain C: by tables, as the library does it, and bit by bit. */
#include "plain.h"
#include <string.h>

static const uint8_t COLUMNS[64] = {
    0xce, 0xcb, 0xd3, 0xd5, 0xd6, 0xd9, 0xda, 0xdc, 0x23, 0x25, 0x26, 0x29, 0x2a, 0x2c, 0x31, 0x34,
    0x0e, 0x0b, 0x13, 0x15, 0x16, 0x19, 0x1a, 0x1c, 0xe3, 0xe5, 0xe6, 0xe9, 0xea, 0xec, 0xf1, 0xf4,
    0x4f, 0x4a, 0x52, 0x54, 0x57, 0x58, 0x5b, 0x5d, 0xa2, 0xa4, 0xa7, 0xa8, 0xab, 0xad, 0xb0, 0xb5,
    0x8f, 0x8a, 0x92, 0x94, 0x97, 0x98, 0x9b, 0x9d, 0x62, 0x64, 0x67, 0x68, 0x6b, 0x6d, 0x70, 0x75,
};

static uint8_t shares[8][256];

/* By syndrome: the data cell to complement, or one of these. */
enum { CLEAN = 64, CHECK = 65, TWO = 66, MANY = 67 };
static uint8_t actions[256];

uint8_t bits_generate(uint64_t data) {
    uint8_t check = 0x0c;
    for (int cell = 0; cell < 64; cell++)
        if (data >> cell & 1)
            check ^= COLUMNS[cell];
    return check;
}

void plain_setup(void) {
    for (int lane = 0; lane < 8; lane++)
        for (int byte = 0; byte < 256; byte++)
            shares[lane][byte] = bits_generate((uint64_t)byte << 8 * lane) ^ 0x0c;
    for (int s = 0; s < 256; s++)
        actions[s] = __builtin_popcount(s) % 2 ? MANY : TWO;
    actions[0] = CLEAN;
    for (int j = 0; j < 8; j++)
        actions[1 << j] = CHECK;
    for (int cell = 0; cell < 64; cell++)
        actions[COLUMNS[cell]] = cell;
}

uint8_t table_generate(uint64_t data) {
    return 0x0c ^ shares[0][data & 0xff] ^ shares[1][data >> 8 & 0xff] ^ shares[2][data >> 16 & 0xff] ^
           shares[3][data >> 24 & 0xff] ^ shares[4][data >> 32 & 0xff] ^ shares[5][data >> 40 & 0xff] ^
           shares[6][data >> 48 & 0xff] ^ shares[7][data >> 56];
}

uint8_t table_decode(uint64_t *data, uint8_t check) {
    uint8_t action = actions[table_generate(*data) ^ check];
    if (action < 64) {
        *data ^= UINT64_C(1) << action;
        return 0;
    }
    return action == TWO ? 5 : action == MANY ? 6 : 0;
}

/* How many words of nine bytes the buffer holds, at most 65,536. */
static size_t places(size_t length) {
    size_t words = length / 9;
    return words < 65536 ? words : 65536;
}

uint8_t plain_write(uint8_t *bytes, size_t length, uint16_t place, uint64_t data) {
    if (place >= places(length))
        return 1;
    uint8_t *at = bytes + 9 * (size_t)place;
    memcpy(at, &data, 8);
    at[8] = table_generate(data);
    return 0;
}

uint8_t plain_read(uint8_t *bytes, size_t length, uint16_t place, uint64_t *data, uint32_t *log) {
    *log = 0;
    if (place >= places(length))
        return 1;
    const uint8_t *at = bytes + 9 * (size_t)place;
    uint64_t word;
    memcpy(&word, at, 8);
    uint8_t syndrome = table_generate(word) ^ at[8];
    *log = at[8];
    if (syndrome == 0) {
        *data = word;
        return 0;
    }
    uint8_t action = actions[syndrome];
    uint32_t kind = action == TWO || action == MANY ? 1 : 2;
    *log |= kind << 30 | 1u << 24 | (uint32_t)syndrome << 16;
    if (kind == 1)
        return action == TWO ? 5 : 6;
    *data = action < 64 ? word ^ UINT64_C(1) << action : word;
    return 0;
}
