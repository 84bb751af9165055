/* What crosses the border between C and the library, at its edges: numbers that no kind has, null with length 0, and that a refusal
 * changes no lent byte. Prints the cases that fail and how many passed; the status is 1 where one failed. */
#include "bulvreden.h"

#define ALL UINT64_MAX
#define ROOM 12300

int printf(const char *text, ...);
int memcmp(const void *one, const void *other, size_t count);
void *memset(void *to, int byte, size_t count);

static uint8_t out[ROOM], before[ROOM];
static struct bulvreden_entry entries[2];
static unsigned passed, failed;

static void test(int holds, const char *name) {
    if (holds) {
        passed++;
        return;
    }
    failed++;
    printf("failed: %s\n", name);
}

/* All of the output as it was lent. */
static void lend(void) {
    memset(out, 0x5A, ROOM);
    memset(before, 0x5A, ROOM);
}

static int unchanged(void) { return memcmp(out, before, ROOM) == 0; }

static int all_zero(const void *from, size_t count) {
    const uint8_t *bytes = from;
    for (size_t i = 0; i < count; i++)
        if (bytes[i] != 0) return 0;
    return 1;
}

static const struct bulvreden_code D = {1, {'D'}};

static struct bulvreden_wrote record(uint64_t kind, struct bulvreden_code code, size_t room) {
    lend();
    return bulvreden_write(out, room, kind, 9, 7, code, (const uint8_t *)"8=FI", 4, 4);
}

static int refused(struct bulvreden_wrote wrote, uint64_t number) {
    return wrote.number == number && wrote.place == 0 && wrote.length == 0 && unchanged();
}

static void records(void) {
    static const uint64_t kinds[] = {0, 2, 4, 6, 257, 261, ALL};
    for (size_t i = 0; i < sizeof kinds / sizeof *kinds; i++) test(refused(record(kinds[i], D, 43), BULVREDEN_UNKNOWN), "another kind of record is 28");
    test(record(BULVREDEN_PLAIN, D, 27).length == 27 && out[27] == 0x5A, "a plain record of 27 bytes");
    test(record(BULVREDEN_COUNTER, D, 43).length == 43 && out[43] == 0x5A, "a counter of 43 bytes");
    test(refused(record(BULVREDEN_PLAIN, D, 26), BULVREDEN_OUTPUT), "one byte short is 21");
}

static void codes(void) {
    static const uint64_t none[] = {0, 9, 256, 257, 264, ALL};
    struct bulvreden_code code = {8, {'A', 'B', 'C', 'D', 'E', 'F', 'G', 'H'}};
    test(record(BULVREDEN_PLAIN, code, 34).length == 34 && out[21] == 8 && out[29] == 'H', "eight letters");
    for (size_t i = 0; i < sizeof none / sizeof *none; i++) {
        code.letters = none[i];
        test(refused(record(BULVREDEN_PLAIN, code, 43), BULVREDEN_CODE), "no letter, or more than eight, is 20");
    }
}

static void seals(void) {
    struct bulvreden_wrote wrote = record(BULVREDEN_COUNTER, D, 43);
    struct bulvreden_sealed sealed = bulvreden_seal(out, wrote.length, 0x0102030405060708);
    test(sealed.number == 0 && sealed.place == 0 && out[21] == 8 && out[28] == 1 && out[43] == 0x5A, "a sealed counter");
    lend();
    sealed = bulvreden_seal(out, 11, 1);
    test(sealed.number == BULVREDEN_NO_RECORD && sealed.place == 0 && unchanged(), "11 bytes to seal are 22");
    test(bulvreden_seal(NULL, 0, 1).number == BULVREDEN_NO_RECORD, "nothing to seal is 22");
}

static void slots(void) {
    static const uint64_t neither[] = {2, 256, 257, ALL};
    struct bulvreden_counters first = {1, 2, 3, 12288, 4, 0};
    struct bulvreden_fresh fresh = bulvreden_fresh_slots(first);
    test(fresh.number == 0 && fresh.next == 3 && fresh.slots.image[1][0] == 2, "fresh slots");
    for (size_t i = 0; i < sizeof neither / sizeof *neither; i++) {
        first.reset = neither[i];
        fresh = bulvreden_fresh_slots(first);
        struct bulvreden_image image = bulvreden_slot(first);
        test(fresh.number == BULVREDEN_UNKNOWN && all_zero(&fresh.place, 16) && all_zero(&fresh.slots, 104), "fresh slots: neither yes nor no is 28");
        test(image.number == BULVREDEN_UNKNOWN && image.place == 0 && all_zero(image.bytes, 52), "a slot: neither yes nor no is 28");
    }
    first.generation = ALL - 1;
    first.reset = 1;
    fresh = bulvreden_fresh_slots(first);
    test(fresh.number == BULVREDEN_EXHAUSTED && all_zero(&fresh.place, 16) && all_zero(&fresh.slots, 104), "no generation left is 15");
    struct bulvreden_image image = bulvreden_slot(first);
    test(image.number == 0 && image.bytes[0] == 0xFE && image.bytes[40] == 1, "a slot with a reset owed");
}

static void prefixes(void) {
    static const uint64_t many[] = {1000000000, 4294967295, 4294967296, 4294967297, ALL};
    struct bulvreden_made made = {1700000000, 999999999, 1, 1};
    struct bulvreden_counters first = {1, 1, 1, 12288, 0, 0};
    struct bulvreden_slots both = bulvreden_fresh_slots(first).slots;
    lend();
    test(refused(bulvreden_prefix(out, 12287, made, both), BULVREDEN_OUTPUT), "12,287 bytes for a prefix are 21");
    test(bulvreden_prefix(out, 12288, made, both).length == 12288 && out[12287] == 0 && out[12288] == 0x5A, "a prefix of 12,288 bytes");
    for (size_t i = 0; i < sizeof many / sizeof *many; i++) {
        lend();
        made.nanoseconds = many[i];
        test(refused(bulvreden_prefix(out, ROOM, made, both), BULVREDEN_NANOSECONDS), "too many nanoseconds are 5");
    }
    made.nanoseconds = 0;
    made.seconds = (uint64_t)1 << 63;
    test(refused(bulvreden_prefix(out, ROOM, made, both), BULVREDEN_SECONDS), "too many seconds are 6");
}

/* A scan of the prefix that stands in the output: the fields of its answer, and both entries as they were lent. */
static void scans(void) {
    static const uint64_t kinds[] = {0, 4, 257, ALL};
    struct bulvreden_made made = {1700000000, 5, 1, 1};
    struct bulvreden_counters first = {1, 7, 9, 12288, 3, 1};
    bulvreden_prefix(out, ROOM, made, bulvreden_fresh_slots(first).slots);
    struct bulvreden_found found = bulvreden_scan(out, 12288, BULVREDEN_TAIL, 1, 100, NULL, 0);
    test(found.number == 0 && found.sender == 7 && found.target == 9 && found.generation == 3 && found.active == 1, "a prefix opens, with no index");
    test(found.end == 12288 && found.watermark == 3 && found.reset == 1 && found.stale == 0 && found.cut == BULVREDEN_CUT_NONE, "its other fields");
    test(memcmp(found.slots.image[1], out + 8192, 52) == 0 && found.header.nanoseconds == 5, "its slots and its time");
    memset(entries, 0x5A, sizeof entries);
    for (size_t i = 0; i < sizeof kinds / sizeof *kinds; i++) {
        found = bulvreden_scan(out, 12288, kinds[i], 1, 100, entries, 2);
        test(found.number == BULVREDEN_UNKNOWN && all_zero(&found.place, sizeof found - 8), "another rule is 28, with zeros");
    }
    memset(before, 0x5A, ROOM);
    test(memcmp(entries, before, sizeof entries) == 0, "and changes no entry");
    test(bulvreden_scan(NULL, 0, BULVREDEN_TAIL, 1, 100, NULL, 0).number == BULVREDEN_SHORT_HEADER, "no journal is 1");
    test(bulvreden_scan(NULL, 0, BULVREDEN_TAIL, 1, BULVREDEN_BODY_LIMIT_MAX + 1, NULL, 0).number == BULVREDEN_LIMIT, "a limit above the largest is 17");
}

static void others(void) {
    struct bulvreden_entry far = {1, ALL, ALL};
    struct bulvreden_message message = bulvreden_reread(NULL, 0, far, 1);
    test(message.number == BULVREDEN_NOT_WHOLE && all_zero(&message.place, sizeof message - 8), "an entry past 2^64 is 23, with zeros");
    test(bulvreden_crc32(NULL, 0) == 0, "the CRC-32 of nothing");
    test(bulvreden_crc32((const uint8_t *)"123456789", 9) == 0xCBF43926, "a published CRC-32");
    test(bulvreden_crc32_resume(bulvreden_crc32((const uint8_t *)"12345", 5), (const uint8_t *)"6789", 4) == 0xCBF43926, "the same in two parts");
}

int main(void) {
    records();
    codes();
    seals();
    slots();
    prefixes();
    scans();
    others();
    printf("%u cases of the library passed, %u failed\n", passed, failed);
    return failed != 0;
}
