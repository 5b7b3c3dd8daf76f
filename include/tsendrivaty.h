/* Tsendrivaty: the sending side of CFDP (CCSDS 727.0-B-5) as seven C functions over one handler, which lives in memory that you lend.
 *
 * The archive is made by `rt lib` in crates/seam (crates/seam/out/libseam.a, x86-64 Linux, position independent). It allocates nothing, keeps
 * nothing outside your struct, calls nothing but memcpy, memmove and memset of the C library, and uses no thread, clock or file.
 * docs/SEAM.md is the guide, docs/REFUSALS.md says what to do about each refusal.
 *
 * WHAT YOU MUST KEEP
 *  - The pointer to the handler points to sizeof(struct tsendrivaty_handler) bytes of your memory, aligned to 8. What is in them may be anything: every bit
 *    pattern is a state, and every call returns on it.
 *  - A slice is a pointer and a length. The pointer is not null, also where the length is 0, and that many bytes can be read (in `out`: written).
 *  - Slices don't overlap the handler, and `out` overlaps no other slice.
 *  - The report that you lend to a delivery is sizeof(struct tsendrivaty_deliver_report) bytes, that of a burst sizeof(struct tsendrivaty_burst_report),
 *    each aligned to 8, whatever is in them; it overlaps neither the handler nor a slice.
 *  - One call at a time on one handler. Different handlers know nothing of each other.
 *  - From an accepted put until the step is Idle again, lend the same file, unchanged, at every step and burst. Only its length is tested (30). Of other bytes
 *    of the same length each data PDU carries those lent at its own step, and the EOF the checksum of the first-pass bytes that left: a peer that
 *    got these takes them for the file.
 *  - Expiry is a level: once the timer has run out, say `expired` at every step and burst until a report starts a timer again.
 *  - After each accepted step take report.length bytes from the front of `out` and send them, before you lend `out` again; after an accepted burst
 *    those of all its steps.
 */
#ifndef TSENDRIVATY_H
#define TSENDRIVATY_H

/* Freestanding headers where the compiler has them; a compiler that came without any (the kit's clang) names the types itself. */
#if defined(__has_include)
#if __has_include(<stdint.h>) && __has_include(<stddef.h>)
#define TSENDRIVATY_HAS_STDINT 1
#endif
#else
#define TSENDRIVATY_HAS_STDINT 1
#endif
#ifdef TSENDRIVATY_HAS_STDINT
#include <stddef.h>
#include <stdint.h>
#else
typedef __UINT8_TYPE__ uint8_t;
typedef __UINT32_TYPE__ uint32_t;
typedef __UINT64_TYPE__ uint64_t;
typedef __SIZE_TYPE__ size_t;
#ifndef offsetof
#define offsetof(type, member) __builtin_offsetof(type, member)
#endif
#endif

#ifdef __cplusplus
#define TSENDRIVATY_ASSERT(holds, says) static_assert(holds, says)
extern "C" {
#else
#define TSENDRIVATY_ASSERT(holds, says) _Static_assert(holds, says)
#endif

/* ---- Answers: 0, or the number of document 01's refusal. A refused call changes no number of the handler or of a burst's report, and no byte of `out`;
 * the one thing that a refused call writes is the report of a delivery. */

enum tsendrivaty_answer {
    TSENDRIVATY_ACCEPTED = 0,
    /* put */
    TSENDRIVATY_ALREADY_BUSY = 1,
    TSENDRIVATY_BAD_ID_WIDTH = 2,
    TSENDRIVATY_NO_REMOTE_CFG_FOUND = 3,
    TSENDRIVATY_BAD_CONFIG = 4,
    TSENDRIVATY_BAD_NAME_LENGTH = 5,
    TSENDRIVATY_SOURCE_FILE_NOT_VALID_UTF8 = 6,
    TSENDRIVATY_DEST_FILE_NOT_VALID_UTF8 = 7,
    TSENDRIVATY_PACKET_LIMIT = 8,
    /* deliver; tested in the order 20, 21, 23, 22, 24, 25 */
    TSENDRIVATY_MALFORMED = 20,
    TSENDRIVATY_CANT_PROCESS_PACKET_TYPE = 21,
    TSENDRIVATY_UNEXPECTED_PDU = 22,
    TSENDRIVATY_OTHER_TRANSACTION = 23,
    TSENDRIVATY_INVALID_NAK_PDU = 24,
    TSENDRIVATY_RETRANSMIT_FULL = 25,
    /* step */
    TSENDRIVATY_FILE_CHANGED = 30,
    TSENDRIVATY_OUT_TOO_SMALL = 31,
    /* burst; tested before the two of its first step */
    TSENDRIVATY_BURST_TOO_LONG = 32
};

/* Where a transaction stands. */
enum tsendrivaty_step_number {
    TSENDRIVATY_IDLE = 0,
    TSENDRIVATY_SENDING_METADATA = 1,
    TSENDRIVATY_SENDING_FILE_DATA = 2,
    TSENDRIVATY_SENDING_EOF = 3,
    TSENDRIVATY_WAITING_FOR_EOF_ACK = 4,
    TSENDRIVATY_WAITING_FOR_FINISHED = 5,
    TSENDRIVATY_CLOSING = 6
};

/* Words for the bytes below. */
enum { TSENDRIVATY_CANCEL = 1, TSENDRIVATY_IGNORE = 3, TSENDRIVATY_ABANDON = 4 };                     /* fault actions */
enum { TSENDRIVATY_MODULAR = 0, TSENDRIVATY_CRC32C = 2, TSENDRIVATY_CRC32 = 3, TSENDRIVATY_NULL = 15 }; /* checksum types */
enum { TSENDRIVATY_NO_TIMER = 0, TSENDRIVATY_ACK_TIMER = 1, TSENDRIVATY_CHECK_TIMER = 2 };             /* report.timer */
enum { TSENDRIVATY_NO = 0, TSENDRIVATY_YES = 1, TSENDRIVATY_AS_ENTRY = 2 };                            /* put's mode and closure */

/* ---- Numbers. A width in bytes, 1, 2, 4 or 8, and a value that fits it. Two types, so that one can't stand for the other. */

struct tsendrivaty_entity_id {
    uint8_t width;
    uint64_t value;
};

struct tsendrivaty_sequence_number {
    uint8_t width;
    uint64_t value;
};

/* ---- The configuration. YOU write it, before a put; no call changes it, and only put reads it: what a transaction needs of it is copied.
 * A flag is a byte, here and below: 0 is clear, any other is set. */

struct tsendrivaty_remote {
    struct tsendrivaty_entity_id id; /* compared with the put's destination by value alone */
    uint64_t maxpacket;              /* longest PDU, at most 4,096; lend `out` of this length and no step is refused for room */
    uint64_t maxsegment;             /* most file bytes in a PDU, at least 1; 2^64 - 1 for no limit of its own */
    uint8_t checksum;                /* 0 modular, 2 CRC-32C, 3 CRC-32, 15 null */
    uint8_t crc;                     /* flag: a CRC-16 closes each PDU */
    uint8_t unacknowledged;          /* flag: the mode, where the put doesn't say */
    uint8_t closure;                 /* flag: closure requested, where the put doesn't say; matters in unacknowledged mode only */
    uint8_t limit;                   /* how many expiries of the ack timer are a fault; 0 acts as 1 */
};

struct tsendrivaty_config {
    struct tsendrivaty_entity_id id;      /* your own */
    struct tsendrivaty_remote remotes[8]; /* the first with the destination's id value is used */
    size_t count;                         /* how many of them are looked at; above 8 acts as 8 */
    uint8_t actions[16];                  /* by condition code: 1 cancel, 3 ignore, 4 abandon. All sixteen are judged; 1 (ack limit) and 10 (check limit) occur */
    uint8_t eofsent;                      /* flag: steps tell of each EOF that leaves */
    uint8_t finished;                     /* flag: steps tell of the transaction's end */
};

/* ---- The state. The CALLS write it. Read it if you like; keep it, save it and bring it back as a whole. */

/* What the accepted put fixed. All zero when Idle. */
struct tsendrivaty_transaction {
    struct tsendrivaty_entity_id source;      /* both ids have the larger of the two widths */
    struct tsendrivaty_sequence_number number;
    struct tsendrivaty_entity_id destination;
    uint64_t segment;       /* L: file bytes in a PDU */
    uint64_t size;          /* S: the file's length */
    uint8_t actions[16];
    uint8_t unacknowledged; /* this and the next three are flags */
    uint8_t crc;
    uint8_t large;          /* the file is longer than 4,294,967,295 bytes */
    uint8_t closure;
    uint8_t checksum;
    uint8_t limit;
    uint8_t eofsent;        /* flag */
    uint8_t finished;       /* flag */
};

/* Both names, copied at the put, zeros behind. */
struct tsendrivaty_names {
    uint8_t source[255];
    uint8_t sourcelen;
    uint8_t destination[255];
    uint8_t destinationlen;
};

/* The first-pass bytes of the file that have left. Repairs move neither number. */
struct tsendrivaty_file {
    uint64_t progress; /* how many */
    uint32_t sum;      /* their checksum, as an EOF carries it: every EOF takes this number, and no byte of the file */
};

/* One request of a NAK: the bytes from start up to end; (0, 0) asks for the metadata. */
struct tsendrivaty_request {
    uint64_t start;
    uint64_t end;
};

/* Repairs that are owed, the oldest first. */
struct tsendrivaty_queue {
    struct tsendrivaty_request places[64];
    size_t count;
};

/* The values of a Finished PDU, or of the finished event. */
struct tsendrivaty_finished {
    uint8_t condition; /* 0 no error */
    uint8_t delivery;  /* 0 complete, 1 incomplete */
    uint8_t status;    /* 0 discarded, 1 rejected, 2 retained, 3 unreported */
};

struct tsendrivaty_marks {
    uint8_t cancelled; /* flag */
    uint8_t owed;      /* flag: the cancel's EOF has not left yet */
    uint8_t condition; /* the cancel's */
    uint8_t count;     /* expiries since the EOF */
    struct tsendrivaty_finished finished;
    uint8_t anomalies; /* 0 in every state that calls can reach from a new handler */
};

/* ---- The report. The CALLS write it, YOU read it after an accepted step. An accepted burst leaves that of its last step, an accepted call of another
 * kind clears it, a refused call leaves it.
 * Each event occurs at most once in a step, and they occurred in this order: transaction, eofsent, fault, finished, timer. */

struct tsendrivaty_report {
    uint64_t length;        /* so many bytes in front of `out` are the PDU to send; 0: the step emitted none */
    uint64_t progress;      /* of the fault: progress when it was declared */
    struct tsendrivaty_entity_id source;       /* whose the events are: source id and number of the transaction */
    struct tsendrivaty_sequence_number number;
    uint8_t transaction;    /* 1: the transaction has begun (with the first metadata PDU) */
    uint8_t eofsent;        /* 1: an EOF is in `out` */
    uint8_t fault;          /* 1: a fault was declared */
    uint8_t action;         /* of the fault: 1 cancel, 3 ignore, 4 abandon */
    uint8_t condition;      /* of the fault: 1 ack limit, 10 check limit */
    uint8_t finished;       /* 1: the transaction is over, with `values` */
    struct tsendrivaty_finished values;
    uint8_t timer;          /* 0 none; start now, running or not: 1 the ack timer, 2 the check timer */
};

/* What a delivery said, a refused one too: every delivery writes it. YOU lend it, and no other call knows it. */

struct tsendrivaty_deliver_report {
    uint64_t length; /* so many of the delivered bytes are the PDU's, its CRC with them, up to 65,563; 0: it was Malformed (20) */
};

/* What an accepted burst said. YOU lend it, the burst fills it, no other call knows it, and a refused burst leaves it. */

struct tsendrivaty_burst_report {
    uint64_t count;                      /* so many steps were made, 0 to 16 */
    struct tsendrivaty_report steps[16]; /* the report of each, in order; the next PDU stands `length` bytes further. Places behind `count` keep what they held */
};

/* ---- The handler. Padding between fields has no meaning: no call reads it, and a call may change it. */

struct tsendrivaty_handler {
    struct tsendrivaty_config config;          /* written by you */
    struct tsendrivaty_sequence_number number; /* the next put's; only an accepted put moves it, and after the last of its width comes 0 */
    uint8_t step;                              /* enum tsendrivaty_step_number; any other number acts as 0, Idle */
    struct tsendrivaty_transaction transaction;
    struct tsendrivaty_names names;
    struct tsendrivaty_file file;
    struct tsendrivaty_queue queue;
    struct tsendrivaty_marks marks;
    struct tsendrivaty_report report;          /* read by you */
};

/* ---- The calls */

/* Makes a handler whose first put takes this number; the configuration stays as it is, and all else is cleared. Returns 0. A number that breaks the rule
 * (width 3, or a value too large) is stored, and every put then answers 2. */
uint32_t tsendrivaty_new(struct tsendrivaty_handler *handler, uint8_t width, uint64_t number);

/* Puts a file of `size` bytes to the entity `destination`. Reads no byte of the file. `unacknowledged` and `closure`: 0 no, 1 yes, any other as the
 * table's entry says. The names are 1 to 255 bytes of UTF-8 each, and are copied. Returns 0, or 1 to 8. */
uint32_t tsendrivaty_put(struct tsendrivaty_handler *handler, uint8_t width, uint64_t destination, uint8_t unacknowledged, uint8_t closure,
                         const uint8_t *source_name, size_t source_name_length, const uint8_t *destination_name, size_t destination_name_length,
                         uint64_t size);

/* Takes the PDU that stands in front of `bytes`, nothing before it. What stands behind it is not looked at: idle fill, or the next PDU of the frame. Returns
 * 0, or 20 to 25; `report` says how many bytes are the PDU's, refused or not, so while that is not 0 deliver again from bytes + report->length on, up to
 * the end of the frame. After 20 it is 0, and nothing says where a next PDU would start: what is left is fill, or a damaged PDU.
 * Emits nothing: what is owed leaves with later steps. */
uint32_t tsendrivaty_deliver(struct tsendrivaty_handler *handler, const uint8_t *bytes, size_t length, struct tsendrivaty_deliver_report *report);

/* Makes one step over the lent file, emits at most one PDU in front of `out`, and fills the report; bytes of `out` behind the PDU stay. `expired` is a
 * flag: the timer has run out. Returns 0, 30 or 31; those two undo the step wholly: make it again with the right file or a larger `out`. */
uint32_t tsendrivaty_step(struct tsendrivaty_handler *handler, const uint8_t *file, size_t file_length, uint8_t expired, uint8_t *out, size_t out_length);

/* Makes up to `count` steps over the lent file in one call, 0 to 16, and lays their PDUs end to end in `out`, the first in front; bytes behind the last
 * PDU stay. The first step has `expired`, the others not. `report` says how many were made, and of each what a step's report says. Handler, bytes and
 * reports are those of the same steps made one by one; so the handler's own report is the last step's.
 * Fewer are made for two reasons only: a step that emits nothing is made and is the last, with the length 0; a later step whose PDU does not fit the
 * rest of `out` is not made. Neither an EOF nor Idle ends a burst. `count` times the entry's packet maximum is room enough, 65,536 bytes for any burst.
 * Returns 0; 32 for a count above 16, tested first, in Idle too; or 30 and 31 of the first step, 31 if its PDU does not fit the whole of `out`. These
 * change nothing, not in the report either. A count of 0 makes no step and tests nothing: it is accepted with any file and any `out`, and changes
 * nothing but report->count. */
uint32_t tsendrivaty_burst(struct tsendrivaty_handler *handler, const uint8_t *file, size_t file_length, uint8_t expired, size_t count, uint8_t *out,
                           size_t out_length, struct tsendrivaty_burst_report *report);

/* The user's cancel of the transaction with this source id and number (compared by value). Returns 1 for yes, and the EOF leaves with the next step; 0 for
 * no, and nothing changed: Idle, closing, already cancelled, or another transaction. */
uint32_t tsendrivaty_cancel(struct tsendrivaty_handler *handler, uint8_t source_width, uint64_t source, uint8_t number_width, uint64_t number);

/* Idle at once, whatever was under way; nothing is sent. The next put's number and the configuration stay. Returns 0. */
uint32_t tsendrivaty_reset(struct tsendrivaty_handler *handler);

/* ---- The layout that the archive was built with (C's own, on 64 bits): a compiler that lays the struct out otherwise stops here */

#define TSENDRIVATY_SIZE(type, bytes) TSENDRIVATY_ASSERT(sizeof(struct tsendrivaty_##type) == bytes, #type " has not " #bytes " bytes")
#define TSENDRIVATY_AT(type, field, place, bytes)                                                                                       \
    TSENDRIVATY_ASSERT(offsetof(struct tsendrivaty_##type, field) == place && sizeof(((struct tsendrivaty_##type *)0)->field) == bytes, \
                       #type "." #field " is not " #bytes " bytes at " #place)

TSENDRIVATY_SIZE(entity_id, 16);
TSENDRIVATY_AT(entity_id, width, 0, 1);
TSENDRIVATY_AT(entity_id, value, 8, 8);
TSENDRIVATY_SIZE(sequence_number, 16);
TSENDRIVATY_AT(sequence_number, width, 0, 1);
TSENDRIVATY_AT(sequence_number, value, 8, 8);
TSENDRIVATY_SIZE(remote, 40);
TSENDRIVATY_AT(remote, id, 0, 16);
TSENDRIVATY_AT(remote, maxpacket, 16, 8);
TSENDRIVATY_AT(remote, maxsegment, 24, 8);
TSENDRIVATY_AT(remote, checksum, 32, 1);
TSENDRIVATY_AT(remote, crc, 33, 1);
TSENDRIVATY_AT(remote, unacknowledged, 34, 1);
TSENDRIVATY_AT(remote, closure, 35, 1);
TSENDRIVATY_AT(remote, limit, 36, 1);
TSENDRIVATY_SIZE(config, 368);
TSENDRIVATY_AT(config, id, 0, 16);
TSENDRIVATY_AT(config, remotes, 16, 320);
TSENDRIVATY_AT(config, count, 336, 8);
TSENDRIVATY_AT(config, actions, 344, 16);
TSENDRIVATY_AT(config, eofsent, 360, 1);
TSENDRIVATY_AT(config, finished, 361, 1);
TSENDRIVATY_SIZE(transaction, 88);
TSENDRIVATY_AT(transaction, source, 0, 16);
TSENDRIVATY_AT(transaction, number, 16, 16);
TSENDRIVATY_AT(transaction, destination, 32, 16);
TSENDRIVATY_AT(transaction, segment, 48, 8);
TSENDRIVATY_AT(transaction, size, 56, 8);
TSENDRIVATY_AT(transaction, actions, 64, 16);
TSENDRIVATY_AT(transaction, unacknowledged, 80, 1);
TSENDRIVATY_AT(transaction, crc, 81, 1);
TSENDRIVATY_AT(transaction, large, 82, 1);
TSENDRIVATY_AT(transaction, closure, 83, 1);
TSENDRIVATY_AT(transaction, checksum, 84, 1);
TSENDRIVATY_AT(transaction, limit, 85, 1);
TSENDRIVATY_AT(transaction, eofsent, 86, 1);
TSENDRIVATY_AT(transaction, finished, 87, 1);
TSENDRIVATY_SIZE(names, 512);
TSENDRIVATY_AT(names, source, 0, 255);
TSENDRIVATY_AT(names, sourcelen, 255, 1);
TSENDRIVATY_AT(names, destination, 256, 255);
TSENDRIVATY_AT(names, destinationlen, 511, 1);
TSENDRIVATY_SIZE(file, 16);
TSENDRIVATY_AT(file, progress, 0, 8);
TSENDRIVATY_AT(file, sum, 8, 4);
TSENDRIVATY_SIZE(request, 16);
TSENDRIVATY_AT(request, start, 0, 8);
TSENDRIVATY_AT(request, end, 8, 8);
TSENDRIVATY_SIZE(queue, 1032);
TSENDRIVATY_AT(queue, places, 0, 1024);
TSENDRIVATY_AT(queue, count, 1024, 8);
TSENDRIVATY_SIZE(finished, 3);
TSENDRIVATY_AT(finished, condition, 0, 1);
TSENDRIVATY_AT(finished, delivery, 1, 1);
TSENDRIVATY_AT(finished, status, 2, 1);
TSENDRIVATY_SIZE(marks, 8);
TSENDRIVATY_AT(marks, cancelled, 0, 1);
TSENDRIVATY_AT(marks, owed, 1, 1);
TSENDRIVATY_AT(marks, condition, 2, 1);
TSENDRIVATY_AT(marks, count, 3, 1);
TSENDRIVATY_AT(marks, finished, 4, 3);
TSENDRIVATY_AT(marks, anomalies, 7, 1);
TSENDRIVATY_SIZE(report, 64);
TSENDRIVATY_AT(report, length, 0, 8);
TSENDRIVATY_AT(report, progress, 8, 8);
TSENDRIVATY_AT(report, source, 16, 16);
TSENDRIVATY_AT(report, number, 32, 16);
TSENDRIVATY_AT(report, transaction, 48, 1);
TSENDRIVATY_AT(report, eofsent, 49, 1);
TSENDRIVATY_AT(report, fault, 50, 1);
TSENDRIVATY_AT(report, action, 51, 1);
TSENDRIVATY_AT(report, condition, 52, 1);
TSENDRIVATY_AT(report, finished, 53, 1);
TSENDRIVATY_AT(report, values, 54, 3);
TSENDRIVATY_AT(report, timer, 57, 1);
TSENDRIVATY_SIZE(deliver_report, 8);
TSENDRIVATY_AT(deliver_report, length, 0, 8);
TSENDRIVATY_SIZE(burst_report, 1032);
TSENDRIVATY_AT(burst_report, count, 0, 8);
TSENDRIVATY_AT(burst_report, steps, 8, 1024);
TSENDRIVATY_SIZE(handler, 2112);
TSENDRIVATY_AT(handler, config, 0, 368);
TSENDRIVATY_AT(handler, number, 368, 16);
TSENDRIVATY_AT(handler, step, 384, 1);
TSENDRIVATY_AT(handler, transaction, 392, 88);
TSENDRIVATY_AT(handler, names, 480, 512);
TSENDRIVATY_AT(handler, file, 992, 16);
TSENDRIVATY_AT(handler, queue, 1008, 1032);
TSENDRIVATY_AT(handler, marks, 2040, 8);
TSENDRIVATY_AT(handler, report, 2048, 64);
#ifdef __cplusplus
TSENDRIVATY_ASSERT(alignof(struct tsendrivaty_handler) == 8, "the handler is not aligned to 8");
TSENDRIVATY_ASSERT(alignof(struct tsendrivaty_deliver_report) == 8, "the report of a delivery is not aligned to 8");
TSENDRIVATY_ASSERT(alignof(struct tsendrivaty_burst_report) == 8, "the report of a burst is not aligned to 8");
#else
TSENDRIVATY_ASSERT(_Alignof(struct tsendrivaty_handler) == 8, "the handler is not aligned to 8");
TSENDRIVATY_ASSERT(_Alignof(struct tsendrivaty_deliver_report) == 8, "the report of a delivery is not aligned to 8");
TSENDRIVATY_ASSERT(_Alignof(struct tsendrivaty_burst_report) == 8, "the report of a burst is not aligned to 8");
#endif

#ifdef __cplusplus
}
#endif
#endif
