// What the measurements of `replay` need beside it.
//
//     archive make FOLDER MIB    writes segments of 16 MiB with about so many MiB of short entries:
//                                a checkpoint, a creation, an image, and then deltas of 8 bytes;
//                                prints how many entries it wrote
//     archive grow FOLDER FORKS  writes them with so many forks of 32,768 blocks: a checkpoint, and of
//                                each fork a creation and an image of each block without its hole;
//                                prints how many entries it wrote
//     archive sum FILE..         the CRC-32C of these files, by the loop over the tables
#include "crc32c.h"
#include <stdio.h>
#include <stdlib.h>
#include <string.h>

enum { PAGE = 8192, FORK = 16384, BLOCKS = 32768 };

static const uint64_t SEGMENT = 16 << 20;

static const char *folder;
static uint8_t *segment;
static uint64_t at, previous, entries;

static uint8_t *put(uint8_t *to, uint64_t number, int size) {
    for (int i = 0; i < size; i++) *to++ = number >> 8 * i;
    return to;
}

static void write_segment(uint64_t number, size_t length) {
    char name[4096];
    snprintf(name, sizeof name, "%s/00000001%08X%08X", folder, (unsigned)(number / 256), (unsigned)(number % 256));
    FILE *file = fopen(name, "wb");
    if (!file || fwrite(segment, 1, length, file) != length || fclose(file)) exit(1);
}

// The head of the page that begins here, where so many bytes of an entry are still to come.
static void page_head(uint32_t rest) {
    int first = at % SEGMENT == 0;
    uint8_t *to = segment + at % SEGMENT;
    to = put(to, 0xD116, 2), to = put(to, (rest ? 1 : 0) + (first ? 2 : 0), 2), to = put(to, 1, 4);
    to = put(to, at, 8), to = put(to, rest, 4), to = put(to, 0, 4);
    if (first) to = put(to, 1, 8), to = put(to, SEGMENT, 4), to = put(to, PAGE, 4);
    at += first ? 40 : 24;
}

// Bytes of entries behind those before, so many of the entry with them still to come.
static void add(const uint8_t *bytes, uint32_t length) {
    if (at % PAGE == 0) page_head(0);
    while (length > 0) {
        uint32_t room = PAGE - at % PAGE, piece = length < room ? length : room;
        memcpy(segment + at % SEGMENT, bytes, piece);
        bytes += piece, length -= piece, at += piece;
        if (at % SEGMENT == 0) write_segment(at / SEGMENT - 1, SEGMENT), memset(segment, 0, SEGMENT);
        if (length > 0) page_head(length);
    }
}

static uint64_t start(void) {
    return at % PAGE ? at : at + (at % SEGMENT ? 24 : 40);
}

// An entry of this manager and info with these bytes behind its header.
static void entry(uint8_t manager, uint8_t info, const uint8_t *body, uint32_t length) {
    static uint8_t whole[2 * PAGE], summed[2 * PAGE];
    uint64_t begin = start();
    uint8_t *to = put(whole, 24 + length, 4);
    to = put(to, 0, 4), to = put(to, previous, 8), to = put(to, info, 1), to = put(to, manager, 1), to = put(to, 0, 2);
    memcpy(summed, body, length);
    memcpy(summed + length, whole, 20);
    to = put(to, tables_crc32c(summed, length + 20), 4);
    memcpy(to, body, length);
    memset(to + length, 0, 8);
    add(whole, 24 + length);
    at = (at + 7) / 8 * 8;
    previous = begin, entries++;
}

static uint8_t *relation(uint8_t *to, uint32_t fork) {
    return put(put(put(to, 1663, 4), 5, 4), fork, 4);
}

// The first entry of a new archive, a checkpoint.
static void begin(void) {
    uint8_t body[64], *to;
    segment = calloc(1, SEGMENT);
    if (!segment) exit(1);
    at = SEGMENT;
    to = put(body, 255, 1), to = put(to, 24, 1), to = put(to, SEGMENT + 40, 8), to = put(to, 1, 4);
    to = put(to, 1, 4), to = put(to, 1, 8);
    entry(0, 0x00, body, to - body);
}

static void creation(uint32_t fork) {
    uint8_t body[64], *to;
    to = put(body, 255, 1), to = put(to, 16, 1), to = relation(to, fork), to = put(to, 0, 4);
    entry(2, 0x11, body, to - body);
}

// The image of a page without content: whole, or its header alone, without its hole.
static void image(uint32_t fork, uint32_t block, int whole) {
    uint8_t body[PAGE + 64], *to;
    uint32_t size = whole ? PAGE : 24;
    to = put(body, 0, 1), to = put(to, 0x10, 1), to = put(to, 0, 2), to = put(to, size, 2);
    to = put(to, whole ? 0 : 24, 2), to = put(to, whole ? 2 : 3, 1), to = relation(to, fork), to = put(to, block, 4);
    memset(to, 0, size);
    put(to + 12, 24, 2), put(to + 14, PAGE, 2), put(to + 16, PAGE, 2), put(to + 18, 8196, 2);
    entry(20, 0x00, body, to + size - body);
}

// Writes the last segment, and prints how many entries there are.
static int end(void) {
    if (at % SEGMENT) write_segment(at / SEGMENT, at % SEGMENT);
    printf("%llu\n", (unsigned long long)entries);
    return 0;
}

static int make(uint64_t mib) {
    uint8_t body[64], *to;
    begin();
    creation(FORK);
    image(FORK, 0, 1);
    for (uint64_t i = 0; at < SEGMENT + (mib << 20); i++) {
        to = put(body, 0, 1), to = put(to, 0x20, 1), to = put(to, 12, 2), to = relation(to, FORK), to = put(to, 0, 4);
        to = put(to, 24 + 8 * (i % 1000), 2), to = put(to, 8, 2), to = put(to, i * 2654435761u, 8);
        entry(20, 0x00, body, to - body);
    }
    return end();
}

static int grow(uint32_t forks) {
    begin();
    for (uint32_t fork = FORK; fork < FORK + forks; fork++) {
        creation(fork);
        for (uint32_t block = 0; block < BLOCKS; block++) image(fork, block, 0);
    }
    return end();
}

static int sum(char **names) {
    static uint8_t bytes[1 << 20];
    uint32_t all = 0;
    for (; *names; names++) {
        FILE *file = fopen(*names, "rb");
        if (!file) return 1;
        for (size_t length; (length = fread(bytes, 1, sizeof bytes, file)) > 0;) all ^= tables_crc32c(bytes, length);
        fclose(file);
    }
    printf("%08X\n", all);
    return 0;
}

int main(int count, char **words) {
    make_tables();
    if (count == 4 && !strcmp(words[1], "make")) return folder = words[2], make(strtoull(words[3], 0, 10));
    if (count == 4 && !strcmp(words[1], "grow")) return folder = words[2], grow(strtoul(words[3], 0, 10));
    if (count >= 2 && !strcmp(words[1], "sum")) return sum(words + 2);
    return 2;
}
