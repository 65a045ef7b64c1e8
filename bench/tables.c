#include "crc32c.h"
#include <string.h>

// By the number of bytes of zeros behind a byte, then by the byte.
static uint32_t registers[16][256];
// What a byte at each place of a register leaves behind 128 bytes of zeros.
static uint32_t moves[4][256];

static uint32_t after_zeros(uint32_t r, int bytes) {
    for (int bit = 0; bit < 8 * bytes; bit++) r = (r >> 1) ^ (r & 1 ? 0x82F63B78 : 0);
    return r;
}

void make_tables(void) {
    for (uint32_t byte = 0; byte < 256; byte++) {
        for (int zeros = 0; zeros < 16; zeros++) registers[zeros][byte] = after_zeros(byte, zeros + 1);
        for (int place = 0; place < 4; place++) moves[place][byte] = after_zeros(byte << 8 * place, 128);
    }
}

static uint64_t word_at(const uint8_t *bytes) {
    uint64_t word;
    memcpy(&word, bytes, 8);
    return word;
}

// What a word leaves, with the tables from this one down.
static inline __attribute__((always_inline)) uint32_t emptied(uint64_t word, int last) {
    return registers[last][word & 0xFF] ^ registers[last - 1][word >> 8 & 0xFF] ^ registers[last - 2][word >> 16 & 0xFF]
        ^ registers[last - 3][word >> 24 & 0xFF] ^ registers[last - 4][word >> 32 & 0xFF]
        ^ registers[last - 5][word >> 40 & 0xFF] ^ registers[last - 6][word >> 48 & 0xFF]
        ^ registers[last - 7][word >> 56];
}

static uint32_t after_eights(uint32_t r, const uint8_t *bytes, size_t length) {
    for (; length >= 8; bytes += 8, length -= 8) r = emptied(word_at(bytes) ^ r, 7);
    for (; length > 0; bytes++, length--) r = registers[0][(r ^ *bytes) & 0xFF] ^ r >> 8;
    return r;
}

static inline __attribute__((always_inline)) uint32_t after_sixteen(uint32_t r, const uint8_t *bytes) {
    return emptied(word_at(bytes) ^ r, 15) ^ emptied(word_at(bytes + 8), 7);
}

uint32_t tables_crc32c(const uint8_t *bytes, size_t length) {
    return after_eights(0xFFFFFFFF, bytes, length) ^ 0xFFFFFFFF;
}

uint32_t two_runs_crc32c(const uint8_t *bytes, size_t length) {
    uint32_t r = 0xFFFFFFFF;
    for (; length >= 256; bytes += 256, length -= 256) {
        uint32_t second = 0;
        for (int at = 0; at < 128; at += 16) {
            r = after_sixteen(r, bytes + at);
            second = after_sixteen(second, bytes + 128 + at);
        }
        r = moves[0][r & 0xFF] ^ moves[1][r >> 8 & 0xFF] ^ moves[2][r >> 16 & 0xFF] ^ moves[3][r >> 24] ^ second;
    }
    for (; length >= 16; bytes += 16, length -= 16) r = after_sixteen(r, bytes);
    return after_eights(r, bytes, length) ^ 0xFFFFFFFF;
}
