/* Answers the oracle's protocol (oracle/README.md) with the library, as a host in C calls it, for the operations that the library has:
 * CRC-32, fresh slots, the prefix, records written and sealed, scans and re-reads. Reads requests from standard input until it ends, and
 * writes an answer to each. A request that isn't one ends the program with status 2. */
#include "bulvreden.h"

#define MOST 262144
#define MOST_ENTRIES 8192

enum { CRC = 1, SLOTS = 5, PREFIX = 6, RECORD = 7, SEAL = 8, SCAN = 11, REREAD = 12 };

long read(int file, void *to, size_t count);
long write(int file, const void *from, size_t count);
int memcmp(const void *one, const void *other, size_t count);
void *memcpy(void *to, const void *from, size_t count);

static uint8_t request[MOST], answer[MOST];
static struct bulvreden_entry entries[MOST_ENTRIES];

/* So many bytes, or fewer where the input ends. */
static size_t take(uint8_t *to, size_t count) {
    size_t taken = 0;
    while (taken < count) {
        long n = read(0, to + taken, count - taken);
        if (n <= 0) break;
        taken += (size_t)n;
    }
    return taken;
}

static int give(const uint8_t *from, size_t count) {
    while (count > 0) {
        long n = write(1, from, count);
        if (n <= 0) return 0;
        from += n;
        count -= (size_t)n;
    }
    return 1;
}

/* The machine is little-endian, as the protocol is. */
static uint32_t u32_at(const uint8_t *from) {
    uint32_t x;
    memcpy(&x, from, 4);
    return x;
}

static uint64_t u64_at(const uint8_t *from) {
    uint64_t x;
    memcpy(&x, from, 8);
    return x;
}

static uint8_t *put(uint8_t *to, const void *from, size_t count) {
    memcpy(to, from, count);
    return to + count;
}

/* Where an answer's fields start: behind number and place. */
static uint8_t *begin(uint64_t number, uint64_t place) {
    answer[0] = (uint8_t)number;
    return put(answer + 1, &place, 8);
}

/* A run's bytes in a request of so many bytes: its length, then they. end: where it ends, 0 where it isn't there. */
struct run {
    uint8_t *bytes;
    size_t length;
    size_t end;
};

static struct run run_at(size_t at, size_t count) {
    struct run none = {request, 0, 0};
    if (at == 0 || count < at || count - at < 4) return none;
    size_t length = u32_at(request + at);
    if (count - at - 4 < length) return none;
    struct run found = {request + at + 4, length, at + 4 + length};
    return found;
}

/* A run that is lent to be written, at an answer's end. */
static size_t end_with(uint8_t *to, struct run lent) {
    uint32_t length = (uint32_t)lent.length;
    return (size_t)(put(put(to, &length, 4), lent.bytes, length) - answer);
}

/* Each of the following answers a request of so many bytes: the answer's length, or 0 where it isn't a request. */

static size_t crc(size_t count) {
    struct run first = run_at(1, count), more = run_at(first.end, count);
    if (more.end != count) return 0;
    uint32_t whole = bulvreden_crc32_resume(bulvreden_crc32(first.bytes, first.length), more.bytes, more.length);
    return (size_t)(put(begin(0, 0), &whole, 4) - answer);
}

/* One slot is written as the fresh ones are. */
static int as_one(struct bulvreden_counters counters, const uint8_t *image) {
    struct bulvreden_image one = bulvreden_slot(counters);
    return one.number == 0 && one.place == 0 && memcmp(one.bytes, image, sizeof one.bytes) == 0;
}

static size_t slots(size_t count) {
    if (count != 42) return 0;
    struct bulvreden_counters first = {0};
    memcpy(&first, request + 1, 40);
    first.reset = request[41];
    struct bulvreden_fresh found = bulvreden_fresh_slots(first);
    struct bulvreden_counters second = first;
    second.generation++;
    if (found.number == 0 && !(as_one(first, found.slots.image[0]) && as_one(second, found.slots.image[1]))) return 0;

    uint8_t *to = put(begin(found.number, found.place), &found.next, 8);
    return (size_t)(put(to, &found.slots, 104) - answer);
}

static size_t prefix(size_t count) {
    struct run out = run_at(133, count);
    if (out.end != count) return 0;
    struct bulvreden_made made = {u64_at(request + 1), u32_at(request + 9), u64_at(request + 13), u64_at(request + 21)};
    struct bulvreden_slots both;
    memcpy(&both, request + 29, 104);
    struct bulvreden_wrote found = bulvreden_prefix(out.bytes, out.length, made, both);
    return end_with(put(begin(found.number, found.place), &found.length, 8), out);
}

static size_t record(size_t count) {
    struct run frame = run_at(35, count), out = run_at(frame.end, count);
    if (out.end != count) return 0;
    struct bulvreden_code code;
    memcpy(code.bytes, request + 18, 8);
    code.letters = request[26];
    struct bulvreden_wrote found = bulvreden_write(out.bytes, out.length, request[1], u64_at(request + 2), u64_at(request + 10), code,
                                                   frame.bytes, frame.length, u64_at(request + 27));
    return end_with(put(begin(found.number, found.place), &found.length, 8), out);
}

static size_t seal(size_t count) {
    struct run bytes = run_at(9, count);
    if (bytes.end != count) return 0;
    struct bulvreden_sealed found = bulvreden_seal(bytes.bytes, bytes.length, u64_at(request + 1));
    return end_with(begin(found.number, found.place), bytes);
}

static uint8_t *put_found(uint8_t *to, const struct bulvreden_found *found) {
    const uint64_t numbers[] = {found->dropped, found->dead, found->sender, found->target, found->generation, found->boundary, found->watermark};
    to = put(to, &found->header.seconds, 8);
    to = put(to, &found->header.nanoseconds, 4);
    to = put(to, &found->header.sender, 8);
    to = put(to, &found->header.target, 8);
    to = put(to, &found->slots, 104);
    *to++ = (uint8_t)found->active;
    to = put(to, &found->count, 8);
    to = put(to, &found->end, 8);
    *to++ = (uint8_t)found->cut;
    to = put(to, numbers, sizeof numbers);
    *to++ = (uint8_t)found->reset;
    *to++ = (uint8_t)found->stale;
    return to;
}

static size_t scan(size_t count) {
    if (count < 22) return 0;
    uint64_t room = u32_at(request + 18);
    if (room > MOST_ENTRIES) return 0;
    struct run journal = run_at(22 + 24 * room, count);
    if (journal.end != count) return 0;
    memcpy(entries, request + 22, 24 * room);
    struct bulvreden_found found =
        bulvreden_scan(journal.bytes, journal.length, request[1], u64_at(request + 2), u64_at(request + 10), entries, room);

    uint8_t *to = put_found(begin(found.number, found.place), &found);
    to = put(to, request + 18, 4);
    to = put(to, entries, 24 * room);
    return (size_t)(to - answer);
}

/* A frame that isn't in the journal has no answer. */
static size_t reread(size_t count) {
    struct run journal = run_at(33, count);
    if (journal.end != count) return 0;
    struct bulvreden_entry entry;
    memcpy(&entry, request + 1, 24);
    struct bulvreden_message found = bulvreden_reread(journal.bytes, journal.length, entry, u64_at(request + 25));
    if (found.frame > journal.length || found.length > journal.length - found.frame) return 0;

    uint8_t *to = put(begin(found.number, found.place), found.code.bytes, 8);
    *to++ = (uint8_t)found.code.letters;
    to = put(to, &found.frame, 8);
    struct run frame = {journal.bytes + found.frame, found.length, 0};
    return end_with(to, frame);
}

static size_t reply(size_t count) {
    switch (count == 0 ? 0 : request[0]) {
    case CRC: return crc(count);
    case SLOTS: return slots(count);
    case PREFIX: return prefix(count);
    case RECORD: return record(count);
    case SEAL: return seal(count);
    case SCAN: return scan(count);
    case REREAD: return reread(count);
    default: return 0;
    }
}

int main(void) {
    uint8_t head[4];
    while (take(head, 4) == 4) {
        size_t count = u32_at(head);
        if (count > MOST || take(request, count) != count) return 2;
        size_t length = reply(count);
        uint32_t told = (uint32_t)length;
        memcpy(head, &told, 4);
        if (length == 0 || !give(head, 4) || !give(answer, length)) return 2;
    }
    return 0;
}
