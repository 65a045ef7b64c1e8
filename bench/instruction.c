#include "crc32c.h"
#include <nmmintrin.h>
#include <string.h>

uint32_t instruction_crc32c(const uint8_t *bytes, size_t length) {
    uint64_t r = 0xFFFFFFFF;
    for (; length >= 8; bytes += 8, length -= 8) {
        uint64_t word;
        memcpy(&word, bytes, 8);
        r = _mm_crc32_u64(r, word);
    }
    for (; length > 0; bytes++, length--) r = _mm_crc32_u8(r, *bytes);
    return r ^ 0xFFFFFFFF;
}
