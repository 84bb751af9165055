/* A small host of the journal: how the firmware of a gateway would start.
 *
 *     tools/build host_c
 *     cc -I include -o host examples/host.c target/staticlib/libhost.a
 *     ./host FILE
 *
 * It opens FILE as a unit does at power-up and prints the next numbers. It reads the last message again. It files one message more, and
 * moves the durable end behind it. Then it reads the file once more, as the next power-up will. Where there is no FILE, it makes one.
 *
 * Status: 0 where the message is filed, 1 where the library refuses, 2 where something else is wrong. */
#define _POSIX_C_SOURCE 200809L
#include <errno.h>
#include <fcntl.h>
#include <inttypes.h>
#include <stdio.h>
#include <unistd.h>

#include "bulvreden.h"

#define ROOM 1048576                  /* the longest journal */
#define MESSAGES 1024                 /* the most messages in it */
#define FRAME_LIMIT 4096              /* the longest message */
#define BODY_LIMIT (FRAME_LIMIT + 34) /* a body has its frame, and at most 34 bytes before it */
#define PREFIX 12288                  /* header and slots: the first record stands here */

/* All memory is static: a firmware has no heap. */
static uint8_t journal[ROOM];
static struct bulvreden_entry entries[MESSAGES];

static const char *const meanings[] = {
    [BULVREDEN_SHORT_HEADER] = "it is shorter than a header",
    [BULVREDEN_HEADER_CRC] = "the header's checksum is wrong",
    [BULVREDEN_MAGIC] = "it is no journal",
    [BULVREDEN_VERSION] = "its version isn't 4",
    [BULVREDEN_NANOSECONDS] = "the header's nanoseconds are too many",
    [BULVREDEN_SECONDS] = "the header's seconds are too many",
    [BULVREDEN_SHORT_PREFIX] = "it is shorter than header and slots",
    [BULVREDEN_NO_SLOT] = "neither slot is sound",
    [BULVREDEN_SLOTS_DIFFER] = "the slots contradict each other",
    [BULVREDEN_DURABLE_LOST] = "damage, or the end, before the durable end",
    [BULVREDEN_LENGTH_DAMAGED] = "a damaged length that no loss of power leaves",
    [BULVREDEN_BODY_DAMAGED] = "a damaged record that no loss of power leaves",
    [BULVREDEN_BODY_LENGTH] = "a record's length is 0, or too large",
    [BULVREDEN_BODY_UNREAD] = "a sound record that doesn't read",
    [BULVREDEN_EXHAUSTED] = "no generation is left",
    [BULVREDEN_INDEX_FULL] = "more messages than the index has room for",
    [BULVREDEN_OUTPUT] = "no room is left for the record",
};

/* Says what was refused, and is the status. The numbers that aren't in the table can't be met here. */
static int refused(uint64_t number, uint64_t place) {
    const char *meaning = number < sizeof meanings / sizeof *meanings ? meanings[number] : NULL;
    printf("refused %" PRIu64 " at %" PRIu64 ": %s\n", number, place, meaning ? meaning : "not expected");
    return 1;
}

static int wrong(const char *what) {
    fprintf(stderr, "host: %s\n", what);
    return 2;
}

/* ---- the file: its bytes, and when they are on stable storage, are the host's */

/* Whether all is written at this place. */
static int put(int file, const uint8_t *from, size_t count, uint64_t at) {
    while (count > 0) {
        ssize_t n = pwrite(file, from, count, (off_t)at);
        if (n <= 0) return 0;
        from += n;
        count -= (size_t)n;
        at += (uint64_t)n;
    }
    return 1;
}

/* Reads the whole file to the buffer's start. */
static int take(int file, size_t *length) {
    off_t end = lseek(file, 0, SEEK_END);
    if (end > ROOM) return wrong("the file is longer than 1048576 bytes");
    *length = 0;
    while ((off_t)*length < end) {
        ssize_t n = pread(file, journal + *length, (size_t)end - *length, (off_t)*length);
        if (n <= 0) break;
        *length += (size_t)n;
    }
    return (off_t)*length == end ? 0 : wrong("the file can't be read");
}

/* Makes a new journal: both counters at 1, and no record. The file, or -1.
 *
 * Here this is done for a missing file. A unit does it when it is set up, not at power-up: there a missing journal is a lost one. The file
 * gets its name last, when it is on stable storage, so that no half of it is ever found under the name. After the rename the folder wants
 * a sync too. A unit takes the seconds from its clock; here they are fixed, so that the same calls write the same bytes. */
static int make(const char *path) {
    struct bulvreden_counters first = {.generation = 1, .sender = 1, .target = 1, .end = PREFIX};
    struct bulvreden_made made = {.seconds = 1772438400, .sender = 1, .target = 1};
    struct bulvreden_fresh fresh = bulvreden_fresh_slots(first);
    struct bulvreden_wrote wrote = bulvreden_prefix(journal, ROOM, made, fresh.slots);
    if (fresh.number != 0 || wrote.number != 0) return -1;
    char other[4096];
    int letters = snprintf(other, sizeof other, "%s.new", path);
    if (letters < 0 || (size_t)letters >= sizeof other) return -1;
    int file = open(other, O_RDWR | O_CREAT | O_TRUNC, 0600);
    if (file < 0) return -1;
    if (put(file, journal, wrote.length, 0) && fsync(file) == 0 && rename(other, path) == 0) {
        printf("made a journal of %" PRIu64 " bytes\n", wrote.length);
        return file;
    }
    close(file);
    return -1;
}

/* ---- reading */

/* Tail: what a loss of power can have left is cut, and nothing else. One record: each is on stable storage before the next is written. */
static struct bulvreden_found scan(size_t length) {
    return bulvreden_scan(journal, length, BULVREDEN_TAIL, 1, BODY_LIMIT, entries, MESSAGES);
}

static void show(const struct bulvreden_found *found) {
    printf("open: messages %" PRIu64 ", next to send %" PRIu64 ", next to receive %" PRIu64 ", next generation %" PRIu64 "\n",
           found->count, found->sender, found->target, found->generation);
    if (found->cut == BULVREDEN_CUT_INCOMPLETE) printf("cuts %" PRIu64 " bytes: a record that isn't whole\n", found->dropped);
    if (found->cut == BULVREDEN_CUT_DAMAGED) printf("cuts %" PRIu64 " bytes: damaged\n", found->dropped);
    if (found->reset == 1) printf("a reset is owed\n");
}

/* Reads the last entry's message again, as for a resend. The frame is a part of the journal; FIX ends its fields with the byte 1. */
static int show_last(const struct bulvreden_found *found, size_t length) {
    if (found->count == 0) return 0;
    struct bulvreden_entry last = entries[found->count - 1];
    struct bulvreden_message message = bulvreden_reread(journal, length, last, last.number);
    if (message.number != 0) return refused(message.number, message.place);
    printf("message %" PRIu64 ", code %.*s, %" PRIu64 " bytes: ", last.number, (int)message.code.letters,
           (const char *)message.code.bytes, message.length);
    for (uint64_t i = 0; i < message.length; i++) {
        uint8_t letter = journal[message.frame + i];
        printf("%c", letter == 1 ? '|' : letter >= 0x20 && letter < 0x7F ? letter : '?');
    }
    printf("\n");
    return 0;
}

/* ---- writing
 *
 * A gateway scans once. From then on it keeps the numbers itself: each record and each slot moves them on. */

/* A heartbeat of FIX 4.4; its length. A unit takes the time from its clock. The | stand for the byte 1. */
static size_t heartbeat(uint8_t *frame, uint64_t number) {
    char body[128];
    int inner = snprintf(body, sizeof body, "35=0|34=%" PRIu64 "|49=BROKER-A|52=20260302-08:00:00.000|56=BROKER-B|", number);
    int count = snprintf((char *)frame, FRAME_LIMIT, "8=FIX.4.4|9=%d|%s", inner, body);
    unsigned sum = 0;
    for (int i = 0; i < count; i++) {
        if (frame[i] == '|') frame[i] = 1;
        sum += frame[i];
    }
    return (size_t)(count + snprintf((char *)frame + count, FRAME_LIMIT - (size_t)count, "10=%03u\001", sum % 256));
}

/* Files a message under the next number, in a record that also moves the next number on. When this returns 0 the record is on stable
 * storage. Only then may the message be sent: else the other side could hold a number that a loss of power gives to another message. */
static int append(int file, struct bulvreden_found *now) {
    static uint8_t frame[FRAME_LIMIT];
    static const struct bulvreden_code code = {.letters = 1, .bytes = "0"};
    size_t length = heartbeat(frame, now->sender);
    uint8_t *record = journal + now->end;
    struct bulvreden_wrote wrote = bulvreden_write(record, (size_t)(ROOM - now->end), BULVREDEN_COUNTER, now->sender + 1, now->sender, code,
                                                   frame, length, FRAME_LIMIT);
    if (wrote.number != 0) return refused(wrote.number, wrote.place);
    struct bulvreden_sealed sealed = bulvreden_seal(record, wrote.length, now->generation);
    if (sealed.number != 0) return refused(sealed.number, sealed.place);
    if (!put(file, record, wrote.length, now->end) || fsync(file) != 0) return wrong("the record can't be written");
    printf("filed message %" PRIu64 " at %" PRIu64 ", %" PRIu64 " bytes, generation %" PRIu64 "\n", now->sender, now->end, wrote.length,
           now->generation);
    now->sender += 1;
    now->generation += 1;
    now->end += wrote.length;
    return 0;
}

/* Writes the numbers into the slot that isn't active. From then on the durable end stands behind the last record: damage before it is
 * refused, where before it could be cut as a record that was never sent. The records must be on stable storage first. A loss of power in
 * here spoils this slot alone, and the other one still counts. A unit may do this after each record, or after some. */
static int commit(int file, struct bulvreden_found *now) {
    struct bulvreden_counters counters = {now->generation, now->sender, now->target, now->end, now->watermark, now->reset};
    struct bulvreden_image image = bulvreden_slot(counters);
    if (image.number != 0) return refused(image.number, image.place);
    uint64_t slot = 1 - now->active;
    if (!put(file, image.bytes, sizeof image.bytes, 4096 * (slot + 1)) || fsync(file) != 0) return wrong("the slot can't be written");
    printf("wrote slot %" PRIu64 ": generation %" PRIu64 ", durable end %" PRIu64 "\n", slot, now->generation, now->end);
    now->generation += 1;
    now->active = slot;
    return 0;
}

/* What a scan cut off goes first, and for good: behind a shorter record its rest would look like damage. The sync is also for a host that
 * was started again without a loss of power: a record that it wrote before, and didn't sync, would be a second one that can be torn. */
static int cut(int file, const struct bulvreden_found *now) {
    if (now->cut != BULVREDEN_CUT_NONE && ftruncate(file, (off_t)now->end) != 0) return wrong("the file can't be cut");
    return fsync(file) == 0 ? 0 : wrong("the file can't be synced");
}

/* Whether no more message can be filed. The next scan must find room in its index, and a generation after those of the record and the
 * slot. */
static int full(const struct bulvreden_found *now) {
    return now->count == MESSAGES || now->generation > UINT64_MAX - 2 || now->sender == UINT64_MAX;
}

/* ---- power-up, one message, and the next power-up */

static int read_again(int file, const struct bulvreden_found *now) {
    size_t length;
    int status = take(file, &length);
    if (status != 0) return status;
    struct bulvreden_found found = scan(length);
    if (found.number != 0) return refused(found.number, found.place);
    show(&found);
    int same = found.sender == now->sender && found.generation == now->generation && found.end == now->end && found.active == now->active;
    return same ? 0 : wrong("this isn't what was written");
}

static int run(int file) {
    size_t length;
    int status = take(file, &length);
    if (status != 0) return status;
    struct bulvreden_found now = scan(length);
    if (now.number != 0) return refused(now.number, now.place);
    show(&now);
    status = show_last(&now, length);
    if (status == 0 && full(&now)) status = wrong("the journal is full");
    if (status == 0) status = cut(file, &now);
    if (status == 0) status = append(file, &now);
    if (status == 0) status = commit(file, &now);
    return status == 0 ? read_again(file, &now) : status;
}

int main(int count, char **words) {
    if (count != 2) return wrong("takes one word, the journal's file");
    int file = open(words[1], O_RDWR);
    if (file < 0 && errno == ENOENT) file = make(words[1]);
    if (file < 0) return wrong("the file can't be opened, or made");
    int status = run(file);
    return close(file) == 0 ? status : wrong("the file can't be closed");
}
