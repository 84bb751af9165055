/* How a scan's time grows with the records: journals of short records with ascending numbers, and the same with every tenth number filed
 * again, at once, and at the end. Prints the least of so many times, and how it compares with a third or a tenth of the records. */
#include "bulvreden.h"

#define PREFIX 12288
#define FRAME 8
#define RECORD (12 + 11 + FRAME)
#define MOST 33000
#define TIMES 7

struct moment {
    long seconds;
    long nanoseconds;
};

int clock_gettime(int clock, struct moment *now);
int printf(const char *text, ...);

static uint8_t journal[PREFIX + MOST * RECORD];
static struct bulvreden_entry entries[MOST];

static void make_prefix(void) {
    struct bulvreden_counters first = {1, 1, 1, PREFIX, 0, 0};
    struct bulvreden_made made = {1700000000, 0, 1, 1};
    bulvreden_prefix(journal, PREFIX, made, bulvreden_fresh_slots(first).slots);
}

/* A plain record with the code D. What isn't written as it should be is seen by the scan. */
static uint8_t *make_record(uint8_t *to, uint64_t number) {
    static const struct bulvreden_code code = {1, {'D'}};
    uint8_t frame[FRAME];
    for (int i = 0; i < FRAME; i++) frame[i] = (uint8_t)(number + (uint64_t)i);
    bulvreden_write(to, RECORD, BULVREDEN_PLAIN, 0, number, code, frame, FRAME, FRAME);
    bulvreden_seal(to, RECORD, 0);
    return to + RECORD;
}

enum way { ASCENDING, AGAIN_AT_ONCE, AGAIN_AT_THE_END };

/* So many records, of which every tenth number's are two. The journal's length. */
static size_t make(uint64_t records, enum way way) {
    uint8_t *to = journal + PREFIX;
    uint64_t left = records, again = way == ASCENDING ? 0 : records / 11;
    uint64_t numbers = records - again;
    for (uint64_t number = 1; number <= numbers; number++, left--) {
        to = make_record(to, number);
        if (way == AGAIN_AT_ONCE && number % 10 == 0 && left > numbers - number + 1) {
            to = make_record(to, number);
            left--;
        }
    }
    for (uint64_t number = 10; left > 0; number += 10, left--) to = make_record(to, number);
    return (size_t)(to - journal);
}

static double once(size_t length, uint64_t records, uint64_t *count, uint64_t *dead) {
    struct moment start, end;
    clock_gettime(1, &start);
    struct bulvreden_found found = bulvreden_scan(journal, length, BULVREDEN_TAIL, 1, 100, entries, records);
    clock_gettime(1, &end);
    *count = found.number == 0 && found.end == length ? found.count : 0;
    *dead = found.dead;
    return 1e3 * (double)(end.seconds - start.seconds) + 1e-6 * (double)(end.nanoseconds - start.nanoseconds);
}

int main(void) {
    static const uint64_t sizes[4] = {1000, 3000, 10000, 30000};
    static const char *const names[3] = {"ascending", "every tenth again, at once", "every tenth again, at the end"};
    make_prefix();
    for (int way = 0; way < 3; way++) {
        double least[4];
        for (int i = 0; i < 4; i++) {
            size_t length = make(sizes[i], (enum way)way);
            uint64_t count = 0, dead = 0;
            for (int k = 0; k < TIMES; k++) {
                double time = once(length, sizes[i], &count, &dead);
                if (k == 0 || time < least[i]) least[i] = time;
            }
            printf("%s: %lu records, %lu bytes, %lu entries, %lu dead bytes: %.3f ms", names[way], sizes[i], length, count, dead, least[i]);
            if (i >= 2) printf(", %.2f times the time of a tenth of the records", least[i] / least[i - 2]);
            printf("\n");
        }
    }
    return 0;
}
