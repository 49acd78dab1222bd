#include <stddef.h>
#include <stdint.h>

/* Runs a script of at most 4,096 bytes on a fresh unit. 0, or 9 where the script is too long or the run stopped for want of room. */
uint8_t edc_session(const uint8_t *script, size_t length, uint8_t *out, size_t room, size_t *lines, size_t *written);
uint8_t plain_session(const uint8_t *script, size_t length, uint8_t *out, size_t room, size_t *lines, size_t *written);
