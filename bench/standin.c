/* The driver where no Rust for x86-64 is at hand: the C below stands in for the original's CRC-32, and bench.c leaves the other rows out.
 * It follows IronFix's crc32.rs line by line (MIT; NOTICE): the same table, the same loop. */
#define STANDIN
#include "bench.c"

static uint32_t table[256];

/* The Rust builds the table when it is compiled; here it is built before main. */
__attribute__((constructor)) static void build_table(void) {
    for (size_t byte = 0; byte < 256; byte++) {
        uint32_t crc = (uint32_t)byte;
        for (int bit = 0; bit < 8; bit++) {
            if ((crc & 1) == 1)
                crc = (crc >> 1) ^ 0xEDB88320u;
            else
                crc = crc >> 1;
        }
        table[byte] = crc;
    }
}

uint32_t standin_crc32(const uint8_t *bytes, size_t length) {
    uint32_t crc = 0xFFFFFFFFu;
    for (size_t i = 0; i < length; i++) {
        uint8_t index = (uint8_t)((uint8_t)crc ^ bytes[i]);
        crc = (crc >> 8) ^ table[index];
    }
    return ~crc;
}
