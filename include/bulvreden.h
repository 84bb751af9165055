/* The IronFix journal, format version 4, for a host in C: link libhost.a, which `tools/build host_c` writes.
 *
 * What the host sees to before a call. Nothing else has to be: every input is answered, by a number where it is refused.
 *
 *   Alignment   A pointer to entries is aligned as struct bulvreden_entry is; bytes stand anywhere.
 *   Length      So many bytes, or entries, are there as the length says, and all are initialized. Together they have fewer than 2^63 bytes.
 *   Null        A null pointer comes with length 0 alone.
 *   Overlap     What is lent to be written overlaps nothing else that is lent to the same call.
 *   Time        What is lent does not change during the call: no other thread, no interrupt, no device writes it. The library keeps no
 *               pointer when it returns, has no memory of its own, and takes no lock.
 *   Bools       There are none: yes is the number 1, no is 0, and any other number is refused with 28.
 *
 * The file, its lock, and the order in which its parts reach stable storage are the host's too. Of the C library it wants memcpy and
 * memset, and nothing else. It is x86-64 code, for the System V calling convention.
 *
 * Results come back by value. In each, number is 0 where the call did what it says, else the refusal; then place is the byte of the
 * journal that the refusal names, 0 where it names none, and every other field is 0. A refusal changes no lent byte; a refused scan
 * alone leaves in the index the entries of the records before the refused one.
 */
#ifndef BULVREDEN_H
#define BULVREDEN_H

#include <stddef.h>
#include <stdint.h>

#ifdef __cplusplus
extern "C" {
#endif

/* ---- refusals
 *
 * Of a scan, in the order of its tests: 17, 1, 2 to 6, 7, 8 or 9; at each record 10 to 14 and 16; 10 at the end; 15. */
#define BULVREDEN_SHORT_HEADER 1    /* the journal has fewer than 44 bytes */
#define BULVREDEN_HEADER_CRC 2      /* the header's CRC-32 is wrong */
#define BULVREDEN_MAGIC 3           /* it doesn't start with IRFXJRNL */
#define BULVREDEN_VERSION 4         /* its version isn't 4 */
#define BULVREDEN_NANOSECONDS 5     /* 10^9 nanoseconds or more; also where a prefix is written */
#define BULVREDEN_SECONDS 6         /* seconds above 2^63-1; also where a prefix is written */
#define BULVREDEN_SHORT_PREFIX 7    /* the journal has fewer than 12,288 bytes */
#define BULVREDEN_NO_SLOT 8         /* neither slot is sound */
#define BULVREDEN_SLOTS_DIFFER 9    /* both slots have one generation and different contents */
#define BULVREDEN_DURABLE_LOST 10   /* Tail: damage, or the journal's end, before the durable end */
#define BULVREDEN_LENGTH_DAMAGED 11 /* Tail: a wrong complement, with more behind it than a power loss leaves; or records is too small */
#define BULVREDEN_BODY_DAMAGED 12   /* Tail: a wrong CRC-32, with more behind it than a power loss leaves */
#define BULVREDEN_BODY_LENGTH 13    /* Tail, Anywhere: a body length of 0 or above the body limit */
#define BULVREDEN_BODY_UNREAD 14    /* Tail, Anywhere: a sound checksum over a body that doesn't read: kind, fields or type code */
#define BULVREDEN_EXHAUSTED 15      /* no generation is left; also for fresh slots from above 2^64-3 */
#define BULVREDEN_INDEX_FULL 16     /* one more message number than the index has room for */
#define BULVREDEN_LIMIT 17          /* a body limit or a frame limit above the largest; also where a record is written */
#define BULVREDEN_DEAD_BYTES 18     /* the dead bytes pass 2^64-1: proved never to be answered */
/* Of writing: 28, 17, 19, 20, 21 for a record; 5, 6, 21 for a prefix; 22 for a seal; 28, 15 for slots. */
#define BULVREDEN_FRAME_LIMIT 19    /* the frame is longer than the frame limit */
#define BULVREDEN_CODE 20           /* the type code isn't 1 to 8 letters, each 0x21 to 0x7E */
#define BULVREDEN_OUTPUT 21         /* the output is too small */
#define BULVREDEN_NO_RECORD 22      /* fewer than 12 bytes to seal */
/* Of a re-read, in this order. */
#define BULVREDEN_NOT_WHOLE 23      /* the journal ends before the record does */
#define BULVREDEN_OTHER_LENGTH 24   /* the record's length isn't the entry's, or the complement is wrong */
#define BULVREDEN_REREAD_CRC 25     /* the record's CRC-32 is wrong */
#define BULVREDEN_REREAD_BODY 26    /* the body doesn't read */
#define BULVREDEN_OTHER_NUMBER 27   /* it is another message */
/* Before all others: a number that isn't one of those that the call knows. */
#define BULVREDEN_UNKNOWN 28        /* a rule's kind, a record's kind, or a yes or no */

/* ---- reading */

/* The kinds of a rule. */
#define BULVREDEN_TAIL 1     /* drops what a power loss can have left, and nothing else: for a unit that boots alone */
#define BULVREDEN_ANYWHERE 2 /* drops everything from the first damage on */
#define BULVREDEN_SALVAGE 3  /* the same also for a bad length and an unread body: for a person who saves what can be saved */

/* The largest body limit, and the largest frame limit. */
#define BULVREDEN_BODY_LIMIT_MAX 67108898
#define BULVREDEN_FRAME_LIMIT_MAX 67108864

/* A message number, the offset of its record in the journal, and the length of the record's body. */
struct bulvreden_entry {
    uint64_t number;
    uint64_t offset;
    uint64_t body;
};

/* When the journal was made, in seconds since 1970 and nanoseconds, and the counters that it was made with. */
struct bulvreden_made {
    uint64_t seconds;
    uint64_t nanoseconds;
    uint64_t sender;
    uint64_t target;
};

/* The images of both slots, as they stand at bytes 4096 and 8192 of the journal. */
struct bulvreden_slots {
    uint8_t image[2][52];
};

/* The kinds of a cut. */
#define BULVREDEN_CUT_NONE 0
#define BULVREDEN_CUT_INCOMPLETE 1
#define BULVREDEN_CUT_DAMAGED 2

/* What a scan answers. */
struct bulvreden_found {
    uint64_t number;
    uint64_t place;
    struct bulvreden_made header;
    uint64_t active;     /* the newest slot, 0 or 1: the next one is written over the other */
    uint64_t count;      /* the entries in use */
    uint64_t end;        /* where the next record goes */
    uint64_t cut;        /* what stands behind the end: nothing, a record that isn't whole, or damage */
    uint64_t dropped;    /* its bytes */
    uint64_t dead;       /* bytes of records whose number was filed again */
    uint64_t sender;     /* the next sequence number to send */
    uint64_t target;     /* the next to receive */
    uint64_t generation; /* the next generation */
    uint64_t boundary;   /* the newest slot's durable end */
    uint64_t watermark;  /* the application's */
    uint64_t reset;      /* 1: a reset is owed */
    uint64_t stale;      /* 1: the records end before the boundary, which Tail refuses */
    struct bulvreden_slots slots;
};

/* Reads a journal under a rule, and files its records in the lent index: one entry a message number, in the order in which they first
 * appear. A number met again replaces its entry. Entries past the count don't change. limit: the largest body, and no more than the
 * maximum.
 *
 * records counts for Tail alone: as many as the host may have written since its last sync, the one that is being written among them; so
 * 1 for a host that syncs each one. A power loss shortens the journal, or leaves zeros for its last bytes, or both. With so many
 * records Tail opens what is left, keeps every record that lasted whole, and cuts the rest. The one exception is a torn record whose
 * body, with zeros for what was lost, by chance has the CRC-32 that its head then has: it is kept where its type code lasted, else
 * refused with 14. With fewer records than that a loss inside a record's first eight bytes may be refused with 11. Shorten the file to
 * end, and sync, before the next record is written. */
struct bulvreden_found bulvreden_scan(const uint8_t *journal, size_t length, uint64_t kind, uint64_t records, uint64_t limit,
                                      struct bulvreden_entry *entries, size_t room);

/* A type code: 1 to 8 letters, each 0x21 to 0x7E. The bytes past them are zero when handed out, ignored when taken. */
struct bulvreden_code {
    uint64_t letters;
    uint8_t bytes[8];
};

/* What a re-read answers: the frame is the length bytes at journal + frame. It isn't copied. */
struct bulvreden_message {
    uint64_t number;
    uint64_t place;
    uint64_t frame;
    uint64_t length;
    struct bulvreden_code code;
};

/* Reads a message again, by its entry and its number: the record must stand whole where the entry says and be sound, and the message
 * number in it must be the one that is asked for. The entry's own number isn't looked at. After a scan that opened, each entry in use
 * reads again under its number, as long as the journal's bytes are the same. */
struct bulvreden_message bulvreden_reread(const uint8_t *journal, size_t length, struct bulvreden_entry entry, uint64_t number);

/* ---- writing */

/* The kinds of a record. */
#define BULVREDEN_PLAIN 1   /* a message */
#define BULVREDEN_COUNTER 5 /* a message with the next sender, under a generation */

/* What writing answers: how many bytes were written. */
struct bulvreden_wrote {
    uint64_t number;
    uint64_t place;
    uint64_t length;
};

/* Writes a record at the start of out, to be sealed. What is past it doesn't change. It takes 12 bytes, the letters and the frame, and
 * 10 more for a plain record, 26 for one with a counter. sender counts for the latter alone. limit: the largest frame. */
struct bulvreden_wrote bulvreden_write(uint8_t *out, size_t room, uint64_t kind, uint64_t sender, uint64_t number,
                                       struct bulvreden_code code, const uint8_t *frame, size_t length, uint64_t limit);

struct bulvreden_sealed {
    uint64_t number;
    uint64_t place;
};

/* Seals a written record: puts the generation into one with a counter, then the complement of its length, and the CRC-32 of all from
 * byte 12 to length. So length is what writing answered, not the room. A sealed record may be sealed again. */
struct bulvreden_sealed bulvreden_seal(uint8_t *record, size_t length, uint64_t generation);

/* The counters that a slot holds. end: how far the journal is on stable storage. reset: 1 where one is owed. */
struct bulvreden_counters {
    uint64_t generation;
    uint64_t sender;
    uint64_t target;
    uint64_t end;
    uint64_t watermark;
    uint64_t reset;
};

/* What fresh slots are: both images, and the generation after theirs. */
struct bulvreden_fresh {
    uint64_t number;
    uint64_t place;
    uint64_t next;
    struct bulvreden_slots slots;
};

/* Two slots for a journal that starts from these counters: these, and the same a generation on. */
struct bulvreden_fresh bulvreden_fresh_slots(struct bulvreden_counters first);

struct bulvreden_image {
    uint64_t number;
    uint64_t place;
    uint8_t bytes[52];
};

/* One slot, to be written over the one that isn't active: at 4096 where active is 1, at 8192 where it is 0. */
struct bulvreden_image bulvreden_slot(struct bulvreden_counters counters);

/* Writes the 12,288 bytes of a journal's front at the start of out: the header, the slots in their places, zeros elsewhere. What is past
 * them doesn't change. The slots are written as they are. */
struct bulvreden_wrote bulvreden_prefix(uint8_t *out, size_t room, struct bulvreden_made made, struct bulvreden_slots slots);

/* ---- CRC-32, IEEE 802.3 */

uint32_t bulvreden_crc32(const uint8_t *bytes, size_t length);

/* From the CRC-32 of some bytes, that of the same with more bytes after them. */
uint32_t bulvreden_crc32_resume(uint32_t crc, const uint8_t *bytes, size_t length);

#ifdef __cplusplus
}
#endif

#endif
