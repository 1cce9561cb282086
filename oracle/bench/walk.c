/* A walk in reads of 64 bits from bit 1 on, by hand: as fast as the machine can, so that the port's are timed against it. */
#include <stddef.h>
#include <stdint.h>
#include <string.h>

/* The 64 bits from bit 1 of nine bytes: eight are loaded at once, and the ninth gives its first bit. */
static inline uint64_t read_at_1(const uint8_t *bytes)
{
    uint64_t loaded;
    memcpy(&loaded, bytes, sizeof loaded);
    return __builtin_bswap64(loaded) << 1 | bytes[8] >> 7;
}

/* The sum of all that are whole. */
uint64_t walk_by_hand(const uint8_t *bytes, size_t bytes_len)
{
    uint64_t sum = 0;
    for (size_t at = 0; at + 8 < bytes_len; at += 8)
        sum += read_at_1(bytes + at);
    return sum;
}
