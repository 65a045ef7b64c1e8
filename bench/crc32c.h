// CRC-32C of some bytes, in several ways.
#include <stddef.h>
#include <stdint.h>

// The proved library, crates/wal_crc_c.
uint32_t wal_crc32c(const uint8_t *bytes, size_t length);

// The proved library of another checkout, where there is one.
uint32_t old_wal_crc32c(const uint8_t *bytes, size_t length) __attribute__((weak));

// Loops in C over tables: eight bytes at a time, and as the library goes, sixteen at a time and in two
// runs side by side.
void make_tables(void);
uint32_t tables_crc32c(const uint8_t *bytes, size_t length);
uint32_t two_runs_crc32c(const uint8_t *bytes, size_t length);

// The processor's own instruction.
uint32_t instruction_crc32c(const uint8_t *bytes, size_t length);
