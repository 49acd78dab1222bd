#include <stddef.h>
#include <stdint.h>

void plain_setup(void);
uint8_t bits_generate(uint64_t data);
uint8_t table_generate(uint64_t data);
uint8_t table_decode(uint64_t *data, uint8_t check);

/* A 64-bit unit over a buffer: nine bytes a word, the data lowest byte first, then the check bits. */
uint8_t plain_write(uint8_t *bytes, size_t length, uint16_t place, uint64_t data);
uint8_t plain_read(uint8_t *bytes, size_t length, uint16_t place, uint64_t *data, uint32_t *log);
