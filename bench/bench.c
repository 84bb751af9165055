/* The driver: measures the port, libhost.a, against the original Rust, liboriginal.a (bench/original.rs), on the same inputs. The times of
 * CRC-32 are checksum.rs's.
 *
 *   bench                  a line a row: name, bytes and messages of one operation, and its nanoseconds, the least of five samples: for the
 *                          port, and for the original, 0 where it isn't there
 *   bench once SIDE ROW N  does a row's operation N times (SIDE 0 the port, 1 the original), with no clock: for a counter of instructions.
 *                          A journal has at most 1,000 records then
 *   bench agreement        takes no time, and prints nothing where both sides agree
 *
 * Before a clock is read each answer of one side is held to the other's, and in each timed sample a digest of the answers. Where they
 * differ the status is 2. With STANDIN defined (bench/standin.c) the original's side is there for CRC-32 alone, which is then timed here. */
#include "bulvreden.h"

#define PREFIX 12288
#define FRAME 200
#define ROOM (12 + 34 + FRAME)
#define MOST 100000
#define REREAD 10000
#define ONCE 1000
#define MEBIBYTE 1048576
#define SAMPLES 5
#define LEAST_NS 1e7

struct moment {
    long seconds;
    long nanoseconds;
};

int clock_gettime(int clock, struct moment *now);
int printf(const char *text, ...);
int memcmp(const void *one, const void *other, size_t count);
int strcmp(const char *one, const char *other);
long strtol(const char *text, char **end, int base);
void exit(int status);

/* ---- both sides */

/* What a scan comes to on both sides. */
struct outcome {
    uint64_t count, end, dead, sender, target, generation;
};

/* Two numbers: a count and an end, or an address and a length. */
struct pair {
    uint64_t first, second;
};

struct original_desk;
struct outcome original_scan(const uint8_t *journal, size_t length, uint64_t limit);
size_t original_entries(const uint8_t *journal, size_t length, uint64_t limit, struct bulvreden_entry *out, size_t room);
struct pair original_walk(const uint8_t *journal, size_t length, uint64_t limit);
struct original_desk *original_desk(const uint8_t *code, size_t letters);
struct pair original_write_seal(struct original_desk *desk, uint64_t kind, uint64_t sender, uint64_t number, const uint8_t *frame,
                                size_t length, uint32_t limit, uint64_t generation);
struct pair original_reread(struct original_desk *desk, const uint8_t *journal, size_t length, uint64_t offset, uint32_t body,
                            uint64_t number);

/* What both sides do, in one form. The code is D throughout. */
struct side {
    struct outcome (*scan)(const uint8_t *journal, size_t length);
    struct pair (*walk)(const uint8_t *journal, size_t length);
    struct pair (*write_seal)(uint64_t number, uint64_t generation);
    struct pair (*reread)(const uint8_t *journal, size_t length, const struct bulvreden_entry *entry);
};

static uint8_t journal[PREFIX + (size_t)MOST * ROOM], record[ROOM], frame[FRAME];
static struct bulvreden_entry entries[MOST];
static const struct bulvreden_code code = {1, {'D'}};

/* Every tenth record has a counter. */
static uint64_t kind_of(uint64_t number) { return number % 10 == 0 ? BULVREDEN_COUNTER : BULVREDEN_PLAIN; }

static struct outcome port_scan(const uint8_t *from, size_t length) {
    struct bulvreden_found f = bulvreden_scan(from, length, BULVREDEN_TAIL, 1, BULVREDEN_BODY_LIMIT_MAX, entries, MOST);
    return (struct outcome){f.count, f.end, f.dead, f.sender, f.target, f.generation};
}

/* The port has no walk without an index: the scan takes its place. */
static struct pair port_walk(const uint8_t *from, size_t length) {
    struct outcome found = port_scan(from, length);
    return (struct pair){found.count, found.end};
}

/* The length, 0 where the record is refused. */
static size_t port_record(uint8_t *to, size_t room, uint64_t number, uint64_t generation) {
    struct bulvreden_wrote wrote = bulvreden_write(to, room, kind_of(number), number + 1, number, code, frame, FRAME, BULVREDEN_FRAME_LIMIT_MAX);
    struct bulvreden_sealed sealed = bulvreden_seal(to, wrote.length, generation);
    return wrote.number == 0 && sealed.number == 0 ? wrote.length : 0;
}

static struct pair port_write_seal(uint64_t number, uint64_t generation) {
    return (struct pair){(uint64_t)record, port_record(record, ROOM, number, generation)};
}

static struct pair port_reread(const uint8_t *from, size_t length, const struct bulvreden_entry *entry) {
    struct bulvreden_message message = bulvreden_reread(from, length, *entry, entry->number);
    return (struct pair){(uint64_t)from + message.frame, message.length};
}

static const struct side port = {port_scan, port_walk, port_write_seal, port_reread};

#ifdef STANDIN
static const struct side original = {0, 0, 0, 0};
static void open_desk(void) {}
#else
static struct original_desk *desk;

static struct outcome rust_scan(const uint8_t *from, size_t length) { return original_scan(from, length, BULVREDEN_BODY_LIMIT_MAX); }

static struct pair rust_walk(const uint8_t *from, size_t length) { return original_walk(from, length, BULVREDEN_BODY_LIMIT_MAX); }

static struct pair rust_write_seal(uint64_t number, uint64_t generation) {
    return original_write_seal(desk, kind_of(number), number + 1, number, frame, FRAME, BULVREDEN_FRAME_LIMIT_MAX, generation);
}

static struct pair rust_reread(const uint8_t *from, size_t length, const struct bulvreden_entry *entry) {
    return original_reread(desk, from, length, entry->offset, (uint32_t)entry->body, entry->number);
}

static const struct side original = {rust_scan, rust_walk, rust_write_seal, rust_reread};
static void open_desk(void) { desk = original_desk(code.bytes, 1); }
#endif

/* ---- the inputs */

static void stop(const char *what) {
    printf("the sides differ, or an input is refused: %s\n", what);
    exit(2);
}

static size_t length_of[MOST + 1];

static void make_frame(void) {
    for (size_t i = 0; i < FRAME; i++) frame[i] = (uint8_t)(0x30 + i % 75);
}

/* The journal of so many records with ascending numbers, made by the port. That of fewer records is its front. */
static void make_journal(uint64_t records) {
    struct bulvreden_fresh fresh = bulvreden_fresh_slots((struct bulvreden_counters){1, 1, 1, PREFIX, 0, 0});
    struct bulvreden_wrote front = bulvreden_prefix(journal, PREFIX, (struct bulvreden_made){1700000000, 0, 1, 1}, fresh.slots);
    if (fresh.number != 0 || front.number != 0) stop("the prefix");
    length_of[0] = PREFIX;
    for (uint64_t n = 1; n <= records; n++) {
        size_t length = port_record(journal + length_of[n - 1], ROOM, n, fresh.next + n);
        if (length == 0) stop("a record");
        length_of[n] = length_of[n - 1] + length;
    }
}

/* ---- the rows */

/* size: bytes of a CRC-32, else records of the journal. run does the operation so many times and answers a digest of the answers. */
struct row {
    const char *name;
    uint64_t size;
    uint64_t (*run)(const struct side *side, const struct row *row, uint64_t times);
};

static uint64_t run_scan(const struct side *side, const struct row *row, uint64_t times) {
    uint64_t digest = 0;
    for (; times > 0; times--) {
        struct outcome found = side->scan(journal, length_of[row->size]);
        digest += found.count + found.end + found.sender + found.generation;
    }
    return digest;
}

static uint64_t run_walk(const struct side *side, const struct row *row, uint64_t times) {
    uint64_t digest = 0;
    for (; times > 0; times--) {
        struct pair found = side->walk(journal, length_of[row->size]);
        digest += found.first + found.second;
    }
    return digest;
}

/* The CRC-32 of each record counts for the digest. */
static uint64_t run_write(const struct side *side, const struct row *row, uint64_t times) {
    uint64_t digest = row->size;
    for (; times > 0; times--) {
        struct pair wrote = side->write_seal(times, times + 2);
        digest += wrote.second + ((const uint8_t *)wrote.first)[8];
    }
    return digest;
}

/* One entry after the other, from the front again behind the last. */
static uint64_t run_reread(const struct side *side, const struct row *row, uint64_t times) {
    uint64_t digest = 0, i = 0;
    for (; times > 0; times--) {
        struct pair read = side->reread(journal, length_of[row->size], &entries[i]);
        digest += read.second + ((const uint8_t *)read.first)[i % FRAME];
        i = i + 1 == row->size ? 0 : i + 1;
    }
    return digest;
}

#ifdef STANDIN
/* CRC-32 by the port, and by the stand-in where that is the side. Seven bytes are counted and not timed. */
static uint8_t data[MEBIBYTE];
uint32_t standin_crc32(const uint8_t *bytes, size_t length);

static void make_data(size_t count) {
    for (size_t i = 0; i < count; i++) data[i] = (uint8_t)((i * 2654435761u) >> 13);
}

static uint64_t run_crc(const struct side *side, const struct row *row, uint64_t times) {
    uint64_t digest = 0;
    for (; times > 0; times--) digest += side == &port ? bulvreden_crc32(data, row->size) : standin_crc32(data, row->size);
    return digest;
}

static int of_crc(const struct row *row) { return row->run == run_crc; }

#define CRC_ROWS {"crc-7", 7, run_crc}, {"crc-64", 64, run_crc}, {"crc-4096", 4096, run_crc}, {"crc-1048576", MEBIBYTE, run_crc},
#else
static void make_data(size_t count) { (void)count; }

static int of_crc(const struct row *row) {
    (void)row;
    return 0;
}

#define CRC_ROWS
#endif

static const struct row rows[] = {
    CRC_ROWS{"scan-1000", 1000, run_scan},
    {"walk-1000", 1000, run_walk},
    {"scan-10000", 10000, run_scan},
    {"walk-10000", 10000, run_walk},
    {"scan-100000", MOST, run_scan},
    {"walk-100000", MOST, run_walk},
    {"write-seal", 0, run_write},
    {"reread", REREAD, run_reread},
};

#define ROWS (sizeof rows / sizeof rows[0])

/* Is the original's side there? */
static int has_other(const struct row *row) { return original.scan != 0 || of_crc(row); }

static int of_journal(const struct row *row) { return row->run == run_scan || row->run == run_walk; }

/* Of a journal, the bytes of its records: the prefix is hardly read. */
static uint64_t bytes_of(const struct row *row) {
    if (of_crc(row)) return row->size;
    return of_journal(row) ? length_of[row->size] - PREFIX : FRAME;
}

/* ---- what is checked before a clock is read */

#ifdef STANDIN
/* The entries for the re-reads are those of a scan. */
static void check(void) {
    for (size_t length = 0; length < 300; length++)
        if (bulvreden_crc32(data + length, length) != standin_crc32(data + length, length)) stop("a CRC-32");
    if (bulvreden_crc32(data, MEBIBYTE) != standin_crc32(data, MEBIBYTE)) stop("the CRC-32 of a mebibyte");
    if (port.scan(journal, length_of[MOST]).count != MOST) stop("a scan");
}

/* The walk is the original's alone. */
static int timed(const struct row *row) { return row->run != run_walk && row->size != 7; }
#else
static struct bulvreden_entry others[MOST];

static void check_scan(uint64_t records) {
    size_t length = length_of[records];
    struct outcome one = port.scan(journal, length), other = original.scan(journal, length);
    struct pair walked = original.walk(journal, length);
    size_t count = original_entries(journal, length, BULVREDEN_BODY_LIMIT_MAX, others, MOST);
    if (memcmp(&one, &other, sizeof one) != 0 || one.count != records || one.end != length) stop("a scan");
    if (walked.first != records || walked.second != length) stop("a walk");
    if (count != records || memcmp(entries, others, records * sizeof entries[0]) != 0) stop("the entries of a scan");
}

static void check_message(uint64_t number) {
    struct pair one = port.write_seal(number, number + 2), other = original.write_seal(number, number + 2);
    if (one.second != other.second || memcmp((void *)one.first, (void *)other.first, one.second) != 0) stop("a record");
    one = port.reread(journal, length_of[REREAD], &entries[number - 1]);
    other = original.reread(journal, length_of[REREAD], &entries[number - 1]);
    if (one.second != FRAME || other.second != FRAME || memcmp((void *)one.first, (void *)other.first, FRAME) != 0) stop("a re-read");
}

static void check(void) {
    check_scan(1000);
    check_scan(10000);
    check_scan(MOST);
    for (uint64_t number = 1; number <= REREAD; number++) check_message(number);
}

static int timed(const struct row *row) {
    (void)row;
    return 1;
}
#endif

/* ---- the times */

/* Nanoseconds of one operation. */
static double time_of(const struct side *side, const struct row *row, uint64_t times, uint64_t *digest) {
    struct moment start, end;
    clock_gettime(1, &start);
    *digest = row->run(side, row, times);
    clock_gettime(1, &end);
    return (1e9 * (double)(end.seconds - start.seconds) + (double)(end.nanoseconds - start.nanoseconds)) / (double)times;
}

static double less(double one, double other) { return one < other ? one : other; }

/* So many operations that the port takes 10 ms for them: twice as many until it does. Both sides are warm then. */
static uint64_t enough(const struct row *row) {
    uint64_t times = 1, digest;
    while (time_of(&port, row, times, &digest) * (double)times < LEAST_NS) times *= 2;
    if (has_other(row)) time_of(&original, row, times, &digest);
    return times;
}

static void measure(const struct row *row) {
    uint64_t times = enough(row), one, other;
    double mine = 1e18, theirs = has_other(row) ? 1e18 : 0;
    for (int i = 0; i < SAMPLES; i++) {
        mine = less(mine, time_of(&port, row, times, &one));
        if (!has_other(row)) continue;
        theirs = less(theirs, time_of(&original, row, times, &other));
        if (one != other) stop(row->name);
    }
    printf("%s %lu %lu %.3f %.3f\n", row->name, bytes_of(row), of_journal(row) ? row->size : 1, mine, theirs);
}

static void make_entries(uint64_t count) {
    for (uint64_t n = 0; n < count; n++)
        entries[n] = (struct bulvreden_entry){n + 1, length_of[n], length_of[n + 1] - length_of[n] - 12};
}

static int once(const char *side, const char *name, const char *times) {
    size_t i = 0;
    while (i < ROWS && strcmp(rows[i].name, name) != 0) i++;
    int mine = strcmp(side, "0") == 0;
    if (i == ROWS || (!mine && (strcmp(side, "1") != 0 || !has_other(&rows[i])))) return 2;
    struct row row = rows[i];
    if (!of_crc(&row) && row.size > ONCE) row.size = ONCE;
    make_frame();
    make_data(of_crc(&row) ? row.size : 0);
    if (!of_crc(&row)) make_journal(row.size);
    if (row.run == run_reread) make_entries(row.size);
    printf("%lu\n", row.run(mine ? &port : &original, &row, (uint64_t)strtol(times, 0, 10)));
    return 0;
}

int main(int words, char **word) {
    open_desk();
    if (words == 5 && strcmp(word[1], "once") == 0) return once(word[2], word[3], word[4]);
    int agreement = words == 2 && strcmp(word[1], "agreement") == 0;
    if (words != 1 && !agreement) return 2;
    make_frame();
    make_data(MEBIBYTE);
    make_journal(MOST);
    check();
    if (agreement) return 0;
    for (size_t i = 0; i < ROWS; i++)
        if (timed(&rows[i])) measure(&rows[i]);
    return 0;
}
