/* A test host in C: runs the seven functions over one handler and prints a line for each call; tests/link compares the lines with expected.txt, whose
 * bytes are the model's. Beside that, each call is watched: a refused one may change no number of the handler or of a burst's report and no byte of
 * `out`, no call may touch the configuration, the lent slices, bytes of `out` behind the PDU, another call's report, or what lies around the handler, the
 * reports and `out`; a delivery must write its report, and a burst leave what the same steps leave, made one by one. host.rs prints the same. */
#include "../../include/tsendrivaty.h"

int printf(const char *, ...); /* by hand: the kit's compiler has no headers of the C library */
int memcmp(const void *, const void *, size_t);
void *memcpy(void *, const void *, size_t);
void *memset(void *, int, size_t);

#define ROOM 4608
#define FRAME 65536 /* enough for any burst */
#define EDGE 64

static struct memory {
    uint8_t before[EDGE];
    struct tsendrivaty_handler h;
    uint8_t between[EDGE];
    struct tsendrivaty_deliver_report d;
    uint8_t behind[EDGE];
    struct tsendrivaty_burst_report r;
    uint8_t beside[EDGE];
    uint8_t out[FRAME + EDGE];
} m, was;
static size_t room = ROOM; /* so much of `out` may be lent; behind it lies an edge */
static const uint8_t *files = (const uint8_t *)"ABCDEFGHIJKLMNOPQRSTabcdefghijklmnopqrst"; /* a file, and behind it another */
static const uint8_t *file; /* the one that is lent */
static size_t lent;
static int wrong;

/* ---- watching */

/* Bytes of padding count for nothing. */
static void without_padding(struct tsendrivaty_report *r) {
    memset(&r->source.width + 1, 0, 7);
    memset(&r->number.width + 1, 0, 7);
    memset(&r->timer + 1, 0, 6);
}

/* Whether two handlers hold the same numbers. */
static int same(const struct tsendrivaty_handler *a, const struct tsendrivaty_handler *b) {
    static struct tsendrivaty_handler x, y;
    struct tsendrivaty_handler *both[2] = {&x, &y};
    memcpy(&x, a, sizeof x);
    memcpy(&y, b, sizeof y);
    for (int k = 0; k < 2; k++) {
        struct tsendrivaty_handler *h = both[k];
        struct tsendrivaty_entity_id *ids[] = {&h->config.id, &h->transaction.source, &h->transaction.destination};
        struct tsendrivaty_sequence_number *numbers[] = {&h->number, &h->transaction.number};
        for (int i = 0; i < 3; i++) memset(&ids[i]->width + 1, 0, 7);
        for (int i = 0; i < 2; i++) memset(&numbers[i]->width + 1, 0, 7);
        for (int i = 0; i < 8; i++) {
            memset(&h->config.remotes[i].id.width + 1, 0, 7);
            memset(&h->config.remotes[i].limit + 1, 0, 3);
        }
        memset(&h->config.finished + 1, 0, 6);
        memset(&h->step + 1, 0, 7);
        memset(&h->file.sum + 1, 0, 4);
        without_padding(&h->report);
    }
    return memcmp(&x, &y, sizeof x) == 0;
}

/* The same of reports. */
static int same_report(const struct tsendrivaty_report *a, const struct tsendrivaty_report *b) {
    struct tsendrivaty_report x, y;
    memcpy(&x, a, sizeof x);
    memcpy(&y, b, sizeof y);
    without_padding(&x);
    without_padding(&y);
    return memcmp(&x, &y, sizeof x) == 0;
}

static int same_reports(const struct tsendrivaty_burst_report *a, const struct tsendrivaty_burst_report *b) {
    int ok = a->count == b->count;
    for (int i = 0; i < 16; i++) ok = ok && same_report(&a->steps[i], &b->steps[i]);
    return ok;
}

static void watch(void) {
    memcpy(&was, &m, offsetof(struct memory, out) + room + EDGE);
}

enum call { DELIVERY, BURST, OTHER };

/* Whether no more has changed than may: `length` bytes of `out`, and the report of a delivery or a burst. */
static int kept(int refused, enum call call, size_t length) {
    struct tsendrivaty_handler h = was.h;
    memcpy(&h.config, &m.h.config, sizeof h.config);
    return memcmp(m.before, was.before, EDGE) == 0 && memcmp(m.between, was.between, EDGE) == 0 && memcmp(m.behind, was.behind, EDGE) == 0
        && memcmp(m.beside, was.beside, EDGE) == 0
        && same(&h, &was.h) && length <= room && memcmp(m.out + length, was.out + length, room + EDGE - length) == 0
        && (call == DELIVERY || m.d.length == was.d.length)
        && (call == BURST ? !refused || same_reports(&m.r, &was.r) : memcmp(&m.r, &was.r, sizeof m.r) == 0)
        && (!refused || (length == 0 && same(&m.h, &was.h)));
}

/* The end of a call's line. */
static void ended(int ok) {
    if (!ok) wrong++;
    printf(ok ? "\n" : " CHANGED\n");
}

static void watched(int refused, size_t length) {
    ended(kept(refused, OTHER, length));
}

/* ---- a burst beside the same steps one by one */

/* Of a burst from `was` to `m`: whether it answered, told and left what it must, by single steps on another handler. Places of the report without a
 * step stay. */
static int as_steps(uint32_t answer, size_t length, uint8_t expired, size_t count, size_t space) {
    static struct tsendrivaty_handler one;
    static struct tsendrivaty_burst_report made;
    static uint8_t out[FRAME];
    size_t at = 0;
    uint32_t r = count > 16 ? TSENDRIVATY_BURST_TOO_LONG : 0;
    memcpy(&one, &was.h, sizeof one);
    memcpy(out, was.out, space);
    memcpy(&made, &was.r, sizeof made);
    made.count = 0;
    for (size_t k = 0; !r && k < count; k++) {
        r = tsendrivaty_step(&one, file, length, k ? 0 : expired, out + at, space - at);
        if (r) break;
        made.steps[made.count++] = one.report;
        at += one.report.length;
        if (!one.report.length) break;
    }
    if (made.count) r = 0;
    if (r) return answer == r && kept(1, BURST, 0);
    return answer == 0 && same_reports(&m.r, &made) && same(&m.h, &one) && memcmp(m.out, out, space) == 0 && kept(0, BURST, at);
}

/* ---- calls, each a line */

static void fresh(const char *label, uint8_t width, uint64_t number, size_t length) {
    printf("== %s\n", label);
    memset(&m, 0xA5, sizeof m);
    memset(&m.h.config, 0, sizeof m.h.config);
    m.h.config.id.width = 1;
    m.h.config.id.value = 1;
    m.h.config.count = 1;
    m.h.config.remotes[0] = (struct tsendrivaty_remote){.id = {1, 2}, .maxpacket = 17, .maxsegment = 4, .limit = 2};
    memset(m.h.config.actions, TSENDRIVATY_CANCEL, 16);
    m.h.config.eofsent = m.h.config.finished = 1;
    tsendrivaty_new(&m.h, width, number);
    file = files;
    lent = length;
}

/* From here on what is lent begins at this place. */
static void lend(size_t place) {
    file = files + place;
    printf("lend %lu\n", (unsigned long)place);
}

/* What the record holds. */
static void look(void) {
    printf("look %lu %08x\n", (unsigned long)m.h.file.progress, m.h.file.sum);
}

static void put_named(uint8_t width, uint64_t to, uint8_t unacknowledged, uint8_t closure, const char *s, size_t sn, const char *d, size_t dn) {
    watch();
    uint32_t r = tsendrivaty_put(&m.h, width, to, unacknowledged, closure, (const uint8_t *)s, sn, (const uint8_t *)d, dn, lent);
    printf("put %u", r);
    watched(r != 0, 0);
}

static void put(uint8_t unacknowledged, uint8_t closure) {
    put_named(1, 2, unacknowledged, closure, "a", 1, "b", 1);
}

/* The report holds another number before each delivery, so that one which is not written shows. */
static uint32_t delivered(const uint8_t *bytes, size_t n) {
    m.d.length = ~(uint64_t)0;
    watch();
    return tsendrivaty_deliver(&m.h, bytes, n, &m.d);
}

static void told(uint32_t r) {
    printf("deliver %u %lu", r, (unsigned long)m.d.length);
    ended(kept(r != 0, DELIVERY, 0));
}

static void deliver(const uint8_t *bytes, size_t n) {
    told(delivered(bytes, n));
}

/* A received frame: PDU after PDU, up to the first that is Malformed, and how much is left there. */
static void deliver_frame(const uint8_t *bytes, size_t n) {
    uint32_t r = delivered(bytes, n);
    while (m.d.length && m.d.length <= n) {
        told(r);
        bytes += m.d.length;
        n -= m.d.length;
        r = delivered(bytes, n);
    }
    printf("rest %lu", (unsigned long)n);
    ended(r == TSENDRIVATY_MALFORMED && m.d.length == 0 && kept(1, DELIVERY, 0));
}

/* A PDU's bytes; of a long one the first sixteen, its length, and a sum over all (FNV-1a). */
static void show(const uint8_t *pdu, size_t n) {
    uint32_t sum = 2166136261u;
    for (size_t i = 0; i < n; i++) sum = (sum ^ pdu[i]) * 16777619u;
    for (size_t i = 0; i < (n > 64 ? 16 : n); i++) printf("%02x", pdu[i]);
    if (n > 64) printf("..%lu:%08x", (unsigned long)n, sum);
    if (!n) printf("-");
}

static void tell(const struct tsendrivaty_report *e) {
    if (e->transaction) printf(" transaction");
    if (e->eofsent) printf(" eof-sent");
    if (e->fault) printf(" fault %u %u %lu", e->action, e->condition, (unsigned long)e->progress);
    if (e->finished) printf(" finished %u %u %u", e->values.condition, e->values.delivery, e->values.status);
    if (e->timer) printf(e->timer == TSENDRIVATY_ACK_TIMER ? " ack-timer" : " check-timer");
    if (e->transaction || e->eofsent || e->fault || e->finished || e->timer)
        printf(" of %u:%lu %u:%lu", e->source.width, (unsigned long)e->source.value, e->number.width, (unsigned long)e->number.value);
}

static void step_in(size_t length, int expired, size_t space) {
    watch();
    uint32_t r = tsendrivaty_step(&m.h, file, length, (uint8_t)expired, m.out, space);
    size_t n = r ? 0 : m.h.report.length;
    printf("step %u ", r);
    show(m.out, n < room ? n : room);
    if (!r) tell(&m.h.report);
    watched(r != 0, n);
}

static void steps(int n, int expired) {
    while (n--) step_in(lent, expired, room);
}

/* One line more for each step made. */
static void burst_in(size_t length, int expired, size_t count, size_t space) {
    watch();
    uint32_t r = tsendrivaty_burst(&m.h, file, length, (uint8_t)expired, count, m.out, space, &m.r);
    size_t at = 0, made = r ? 0 : m.r.count;
    printf("burst %u %lu", r, (unsigned long)made);
    for (size_t i = 0; i < made && i < 16; i++) {
        size_t n = m.r.steps[i].length;
        if (n > room - at) n = room - at;
        printf("\n    ");
        show(m.out + at, n);
        tell(&m.r.steps[i]);
        at += n;
    }
    ended(as_steps(r, length, (uint8_t)expired, count, space));
}

static void burst(size_t count, int expired) {
    burst_in(lent, expired, count, room);
}

static void cancel(uint64_t source, uint64_t number) {
    watch();
    uint32_t r = tsendrivaty_cancel(&m.h, 1, source, 1, number);
    printf("cancel %s", r == 1 ? "yes" : r == 0 ? "no" : "?");
    watched(r == 0, 0);
}

static void reset(void) {
    watch();
    uint32_t r = tsendrivaty_reset(&m.h);
    printf(r ? "reset ?" : "reset");
    watched(0, 0);
}

/* Deliveries of the transaction 1, NUMBER, 2 without CRC. */
static size_t framed(uint8_t *pdu, uint8_t number, const uint8_t *body, size_t n) {
    const uint8_t head[] = {0x28, (uint8_t)(n >> 8), (uint8_t)n, 0, 1, number, 2};
    memcpy(pdu, head, sizeof head);
    memcpy(pdu + sizeof head, body, n);
    return sizeof head + n;
}

static void directive(uint8_t number, const uint8_t *body, size_t n) {
    static uint8_t pdu[2048];
    deliver(pdu, framed(pdu, number, body, n));
}

static size_t nak_body(uint8_t *body, const uint32_t *pairs, size_t n) {
    size_t at = 9;
    memset(body, 0, at);
    body[0] = 8;
    for (size_t i = 0; i < 2 * n; i++)
        for (int k = 24; k >= 0; k -= 8) body[at++] = (uint8_t)(pairs[i] >> k);
    return at;
}

static void nak(uint8_t number, const uint32_t *pairs, size_t n) {
    static uint8_t body[1200];
    directive(number, body, nak_body(body, pairs, n));
}

/* A frame that is put together, PDU behind PDU and fill behind these, then delivered. */
static uint8_t frame[70000];
static size_t frame_length;

static void add(uint8_t number, const uint8_t *body, size_t n) {
    frame_length += framed(frame + frame_length, number, body, n);
}

static void add_ack(uint8_t number) {
    add(number, (const uint8_t[]){6, 0x40, 1}, 3);
}

static void add_nak(uint8_t number, const uint32_t *pairs, size_t n) {
    uint8_t body[100];
    add(number, body, nak_body(body, pairs, n));
}

static void add_fill(uint8_t byte, size_t n) {
    memset(frame + frame_length, byte, n);
    frame_length += n;
}

static void first_of_frame(void) {
    deliver(frame, frame_length);
    frame_length = 0;
}

static void all_of_frame(void) {
    deliver_frame(frame, frame_length);
    frame_length = 0;
}

static void ack_of_eof(uint8_t number) {
    directive(number, (const uint8_t[]){6, 0x40, 1}, 3);
}

static void finished(uint8_t number, uint8_t values) {
    directive(number, (const uint8_t[]){5, values}, 2);
}

/* ---- runs; make_expected.py has the same */

static void byte_cases(void) {
    fresh("M1 to M4", 1, 7, 5);
    put(1, 0);
    steps(5, 0);
}

static void acknowledged(void) {
    fresh("acknowledged, with repairs longer than L", 1, 7, 20);
    put(0, 2);
    steps(3, 0);
    nak(7, (const uint32_t[]){0, 7, 0, 0, 3, 3, 1, 8}, 4);
    steps(6, 1);
    nak(7, (const uint32_t[]){0, 12}, 1);
    steps(6, 0);
    steps(1, 1);
    nak(7, (const uint32_t[]){0, 20, 19, 20}, 2);
    ack_of_eof(7);
    steps(7, 1);
    finished(7, 0x02);
    steps(2, 0);
}

static void refusals(void) {
    fresh("every refusal", 1, 7, 5);
    put_named(3, 2, 0, 0, "a", 1, "b", 1);
    put_named(1, 3, 0, 0, "a", 1, "b", 1);
    m.h.config.actions[3] = 2;
    put(0, 0);
    m.h.config.actions[3] = 1;
    put_named(1, 2, 0, 0, "", 0, "b", 1);
    put_named(1, 2, 0, 0, "\xC0\x80", 2, "b", 1);
    put_named(1, 2, 0, 0, "a", 1, "\xED\xA0\x80", 3);
    m.h.config.remotes[0].maxpacket = 16;
    put(0, 0);
    m.h.config.remotes[0].maxpacket = 17;
    put(0, 0);
    put(0, 0);
    step_in(4, 0, ROOM);
    step_in(5, 0, 16);
    step_in(5, 0, 17);
    steps(1, 0);
    deliver((const uint8_t *)"", 0);
    directive(7, (const uint8_t[]){6, 0x40}, 2);
    directive(7, (const uint8_t[]){4, 0}, 2);
    ack_of_eof(8);
    ack_of_eof(7);
    nak(7, (const uint32_t[]){0, 4, 0, 5}, 2);
    static uint32_t many[130];
    nak(7, many, 65);
    nak(7, many, 64);
    nak(7, many, 1);
    steps(1, 0);
    nak(7, many, 1);
    step_in(6, 1, ROOM);
    step_in(5, 1, 3);
}

/* What stands behind a PDU matters to no answer; each delivery says how many bytes are the PDU's. */
static void fills(void) {
    fresh("fill behind deliveries, and what looks like more of the PDU", 1, 7, 5);
    add_ack(7);
    add_fill(0x55, 1);
    first_of_frame();
    put(0, 2);
    steps(3, 0);
    add_nak(7, (const uint32_t[]){0, 4, 0, 0}, 2);
    add_fill(0, 8); /* no third pair */
    first_of_frame();
    steps(3, 0);
    add_nak(7, (const uint32_t[]){0, 5}, 1);
    add_fill(0, 300);
    first_of_frame();
    steps(3, 0);
    add(7, (const uint8_t[]){6, 0x40}, 2);
    add_fill(1, 1); /* not the ACK's third byte */
    first_of_frame();
    add(7, (const uint8_t[]){4, 0}, 2);
    add_fill(0x55, 300);
    first_of_frame();
    add_ack(8);
    add_fill(0x55, 3);
    first_of_frame();
    add(7, (const uint8_t[]){5, 2}, 2);
    add_fill(0x55, 3);
    first_of_frame();
    add_nak(7, (const uint32_t[]){0, 6}, 1);
    add_fill(0x55, 3);
    first_of_frame();
    for (size_t n = 0; n < 10; n++) { /* cut in each place */
        add_ack(7);
        frame_length = n;
        first_of_frame();
    }
    add_ack(7);
    add_fill(0x55, 2);
    first_of_frame();
    add(7, (const uint8_t[]){5, 2}, 2);
    add_fill(6, 1);
    first_of_frame();
    steps(2, 0);
    /* the longest there is: file data with numbers of eight bytes and a data field of 65,535 */
    memset(frame, 1, sizeof frame);
    memcpy(frame, (const uint8_t[]){0x38, 0xFF, 0xFF, 0x77}, 4);
    deliver(frame, 65563);
    deliver(frame, 65562);
    deliver(frame, sizeof frame);
}

static void frames(void) {
    fresh("frames: several PDUs, fill behind, refused ones between, a damaged one", 1, 7, 5);
    add_fill(0x55, 5);
    all_of_frame();
    all_of_frame();
    put(0, 2);
    steps(4, 0);
    add_nak(7, (const uint32_t[]){0, 5}, 1);
    add_ack(7);
    add_fill(0x55, 5);
    all_of_frame();
    steps(3, 0);
    add_fill(0, 300);
    all_of_frame();
    add_ack(7);
    add_nak(7, (const uint32_t[]){0, 0}, 1);
    add_ack(8);
    add_nak(7, (const uint32_t[]){0, 6}, 1);
    add(7, (const uint8_t[]){4}, 1);
    add(7, (const uint8_t[]){12, 0, 0, 0, 0}, 5);
    all_of_frame();
    steps(2, 0);
    add(7, (const uint8_t[]){12, 0, 0, 0, 0}, 5);
    add_ack(7);
    frame[12] ^= 0x40; /* the ACK's version: the Finished behind it is not found */
    add(7, (const uint8_t[]){5, 2}, 2);
    all_of_frame();
    steps(1, 0);
    add(7, (const uint8_t[]){5, 2}, 2);
    add_ack(7);
    add_fill(0xFF, 9);
    all_of_frame();
    steps(2, 0);
}

static void cancels(void) {
    fresh("cancel, reset, second put", 1, 255, 5);
    cancel(1, 255);
    put(0, 0);
    steps(2, 0);
    cancel(1, 7);
    cancel(2, 255);
    cancel(1, 255);
    cancel(1, 255);
    nak(255, (const uint32_t[]){0, 4}, 1);
    steps(1, 0);
    ack_of_eof(255);
    finished(255, 0xF5);
    cancel(1, 255);
    steps(2, 0);
    put(1, 0);
    steps(2, 0);
    reset();
    steps(1, 0);
    put(1, 1);
    steps(5, 0);
    steps(2, 1);
}

static void wide(void) {
    fresh("wide numbers, CRCs, faults", 8, 0xFFFFFFFFFFFFFFFF, 20);
    m.h.config.id = (struct tsendrivaty_entity_id){2, 0x1234};
    m.h.config.count = 9;
    m.h.config.remotes[7] = (struct tsendrivaty_remote){{8, 0x89ABCDEF}, 4096, 7, TSENDRIVATY_CRC32C, 255, 0, 0, 1};
    m.h.config.actions[1] = TSENDRIVATY_IGNORE;
    put_named(4, 0x89ABCDEF, 2, 2, "\xC3\xA9", 2, "\xF0\x9F\x98\x80", 4);
    steps(5, 0);
    steps(2, 1);
    reset();
    m.h.config.actions[1] = TSENDRIVATY_CANCEL;
    m.h.config.remotes[7].checksum = TSENDRIVATY_CRC32;
    put_named(4, 0x89ABCDEF, 2, 2, "\xC3\xA9", 2, "\xF0\x9F\x98\x80", 4);
    steps(5, 0);
    steps(2, 1);
    put_named(4, 0x89ABCDEF, 2, 2, "\xC3\xA9", 2, "\xF0\x9F\x98\x80", 4);
    deliver((const uint8_t *)"\x2A\x00\x07\x37\x00\x00\x12\x34\x00\x00\x00\x00\x00\x00\x00\x01\x89\xAB\xCD\xEF\x0C\x00\x00\x00\x00\xAA\xB6", 27);
    deliver((const uint8_t *)"\x2A\x00\x07\x37\x00\x00\x12\x34\x00\x00\x00\x00\x00\x00\x00\x01\x89\xAB\xCD\xEF\x0C\x00\x00\x00\x00\xAA\xB6\xAA\xB6", 29);
    steps(1, 255);
}

static void bursts(void) {
    fresh("M1 to M4 in one burst", 1, 7, 5);
    put(1, 0);
    burst(16, 0);
    burst(16, 0);
    fresh("M1 to M4 in a buffer of 60 bytes", 1, 7, 5);
    put(1, 0);
    burst_in(5, 0, 16, 60);
    burst_in(5, 0, 16, 60);
}

static void short_bursts(void) {
    fresh("bursts that are refused, bursts that end early", 1, 7, 5);
    burst(17, 0);
    burst((size_t)-1, 1);
    burst_in(0, 0, 17, 0);
    burst(0, 0);
    burst_in(4, 1, 16, 0);
    put(0, 2);
    burst(17, 0);
    burst_in(4, 1, 17, 0);
    burst_in(4, 1, 0, 0);
    burst_in(4, 0, 16, ROOM);
    burst_in(5, 0, 16, 16);
    burst_in(5, 0, 1, 0);
    burst_in(5, 0, 16, 17);
    burst_in(4, 1, 0, ROOM);
    burst_in(5, 0, 16, 26);
    nak(7, (const uint32_t[]){0, 4, 0, 0, 1, 4}, 3);
    burst(2, 1);
    burst_in(5, 0, 16, 13);
    burst(3, 0);
    burst_in(5, 1, 16, 16);
    burst_in(5, 1, 16, 17);
}

static void bursts_with_expiry(void) {
    fresh("the expiry of a burst is its first step's", 1, 7, 5);
    put(0, 2);
    burst(3, 1);
    burst(16, 1);
    burst(16, 1);
    nak(7, (const uint32_t[]){0, 5}, 1);
    burst(16, 1);
    burst(16, 0);
    burst(16, 1);
    burst(1, 1);
    burst(16, 1);
    put(0, 2);
    burst(16, 0);
    nak(8, (const uint32_t[]){0, 5, 0, 0}, 2);
    ack_of_eof(8);
    burst(2, 0);
    finished(8, 0x02);
    burst(16, 0);
    burst(0, 0);
    put(1, 1);
    burst(4, 0);
    cancel(1, 9);
    burst(1, 1);
    burst(16, 1);
}

static void long_bursts(void) {
    static uint8_t big[69400];
    const uint8_t *small = files;
    for (size_t i = 0; i < sizeof big; i++) big[i] = (uint8_t)(i * 7 + i / 256);
    files = big;
    room = FRAME;
    fresh("sixteen data PDUs of 4,096 bytes in 65,536 bytes", 1, 7, 65400);
    m.h.config.remotes[0].maxpacket = m.h.config.remotes[0].maxsegment = 4096;
    m.h.config.remotes[0].checksum = TSENDRIVATY_CRC32;
    put(0, 2);
    burst(1, 0);
    burst(16, 0);
    burst(16, 0);
    nak(7, (const uint32_t[]){40, 65400}, 1);
    burst_in(lent, 1, 16, FRAME - 1);
    burst(16, 1);
    burst(16, 1);
    fresh("the same, another file lent for some", 1, 7, 65400);
    m.h.config.remotes[0].maxpacket = m.h.config.remotes[0].maxsegment = 4096;
    m.h.config.remotes[0].checksum = TSENDRIVATY_CRC32C;
    put(0, 2);
    burst(8, 0);
    lend(3999);
    burst(5, 0);
    look();
    nak(7, (const uint32_t[]){40, 49000}, 1);
    burst(14, 0);
    look();
    lend(0);
    burst(1, 0);
    lend(3999);
    burst(16, 0);
    look();
    lend(0);
    burst(16, 1);
    files = small;
    room = ROOM;
}

/* ---- another file of the same length: each data PDU has the bytes of the file lent with it, the EOF the checksum of those that left */

static void changed_files(void) {
    fresh("D28 of docs/DIFFERENCES.md: an EOF, a cancel's, a fault's", 1, 7, 5);
    put(1, 0);
    steps(2, 0);
    lend(20);
    steps(2, 0);
    lend(0);
    m.h.config.remotes[0].checksum = TSENDRIVATY_CRC32;
    put(1, 0);
    steps(2, 0);
    cancel(1, 8);
    lend(20);
    steps(2, 0);
    lend(0);
    m.h.config.remotes[0].checksum = TSENDRIVATY_MODULAR;
    put(0, 0);
    steps(4, 0);
    lend(20);
    steps(2, 1);
}

/* Pieces of three bytes, so that progress is no multiple of four. */
static void changed_with(const char *label, uint8_t checksum) {
    fresh(label, 1, 7, 10);
    m.h.config.remotes[0].maxsegment = 3;
    m.h.config.remotes[0].checksum = checksum;
    look();
    put(0, 2);
    look();
    steps(2, 0);
    look();
    lend(20);
    steps(1, 0);
    look();
    nak(7, (const uint32_t[]){0, 5, 0, 0}, 2); /* repairs: other bytes than those that left first, and nothing moves */
    look();
    step_in(9, 0, ROOM);
    step_in(10, 0, 3);
    look();
    steps(2, 0);
    look();
    burst(2, 0); /* the metadata, and a piece */
    look();
    lend(0);
    step_in(10, 0, 3); /* refused: the piece that leaves is the next file's */
    look();
    lend(20);
    burst(1, 0);
    look();
    lend(0);
    steps(1, 0);
    look();
    lend(20);
    steps(1, 1);
    lend(0);
    steps(1, 1); /* the fault cancels */
    look();
    lend(20);
    steps(1, 1);
    ack_of_eof(7);
    finished(7, 0x12);
    look();
    steps(1, 0);
    look();
    put(0, 2);
    look();
    burst(3, 0);
    look();
    lend(0);
    cancel(1, 8);
    look();
    steps(1, 0);
    lend(20);
    burst(16, 1);
    look();
    steps(1, 1); /* abandoned */
    look();
    lend(0);
    put(0, 2);
    burst(2, 0);
    reset();
    look();
    lend(20);
    put(1, 1);
    look();
    burst(3, 0);
    lend(0);
    burst(16, 0);
    look();
    lend(20);
    steps(1, 1); /* no Finished in time: the fault cancels */
    look();
}

/* ---- memory that holds anything at all: every call returns one of document 01's numbers, and is watched as above */

static uint64_t seed;

static uint64_t some(void) {
    seed ^= seed << 13;
    seed ^= seed >> 7;
    seed ^= seed << 17;
    return seed;
}

static void filled(int way) {
    uint8_t *h = (uint8_t *)&m.h;
    for (size_t i = 0; i < sizeof m.h; i++) h[i] = way == 0 ? 0xFF : (uint8_t)some();
    if (way < 2) return;
    m.h.step = (uint8_t)(some() % 8); /* near enough to a state that steps are made and deliveries taken */
    m.h.transaction.size = lent;
    m.h.transaction.segment = some() % 4 ? some() % 9 : some();
    m.h.file.progress = some() % 4 ? some() % 22 : some();
    m.h.queue.count = some() % 4 ? some() % 66 : some();
    for (int i = 0; i < 64; i++) {
        m.h.queue.places[i].start = some() % 4 ? some() % 22 : some();
        m.h.queue.places[i].end = some() % 4 ? some() % 22 : some();
    }
}

static size_t some_pdu(uint8_t *p) {
    const struct tsendrivaty_transaction *t = &m.h.transaction;
    static const uint8_t bodies[4][3] = {{6, 0x40, 1}, {5, 2, 0}, {8, 0, 0}, {12, 0, 0}};
    size_t kind = some() % 4, n = kind == 0 ? 3 : kind == 1 ? 2 : kind == 2 ? 9 + 8 * (some() % 70) : 5, at = 4;
    p[0] = 0x28;
    p[1] = (uint8_t)(n >> 8);
    p[2] = (uint8_t)n;
    p[3] = 0x77;
    const uint64_t ids[3] = {t->source.value, t->number.value, t->destination.value};
    for (int i = 0; i < 3; i++)
        for (int k = 56; k >= 0; k -= 8) p[at++] = (uint8_t)(ids[i] >> k);
    for (size_t i = 0; i < n; i++) p[at++] = i < 3 ? bodies[kind][i] : (i - 1) % 4 == 3 ? (uint8_t)(some() % 22) : 0;
    if (some() % 4 == 0) p[some() % at] = (uint8_t)some();
    for (size_t fill = some() % 2 ? some() % 100 : 0; fill; fill--) p[at++] = (uint8_t)some();
    return at;
}

static int known(uint32_t r) {
    return r <= 8 || (r >= 20 && r <= 25) || (r >= 30 && r <= 32);
}

static int one_call(int call) {
    static uint8_t bytes[700];
    uint32_t r = 0;
    size_t n = 0;
    watch();
    if (call == 0) {
        size_t space = some() % 4 ? room : some() % 40;
        r = tsendrivaty_step(&m.h, file, some() % 9 ? lent : some() % 21, (uint8_t)some(), m.out, space);
        n = r ? 0 : m.h.report.length;
        if (n > space) return 0;
    } else if (call == 1) {
        n = some_pdu(bytes);
        r = delivered(bytes, n);
        return known(r) && (r == TSENDRIVATY_MALFORMED) == (m.d.length == 0) && m.d.length <= n && kept(r != 0, DELIVERY, 0);
    } else if (call == 2) {
        for (n = 0; n < 300; n++) bytes[n] = (uint8_t)(some() % 128);
        n = some() % 300;
        r = tsendrivaty_put(&m.h, (uint8_t)(1u << some() % 5), m.h.config.remotes[some() % 8].id.value, (uint8_t)some(), (uint8_t)some(), bytes, n, bytes,
                            n / 2 + 1, some());
        n = 0;
    } else if (call == 3) {
        r = !tsendrivaty_cancel(&m.h, (uint8_t)some(), m.h.transaction.source.value, (uint8_t)some(), m.h.transaction.number.value);
    } else if (call == 4) {
        r = tsendrivaty_reset(&m.h);
    } else if (call == 5) {
        r = tsendrivaty_new(&m.h, (uint8_t)some(), some());
    } else {
        size_t space = some() % 4 ? room : some() % 150, length = some() % 9 ? lent : some() % 21, count = some() % 16 ? some() % 18 : some();
        uint8_t expired = (uint8_t)some();
        r = tsendrivaty_burst(&m.h, file, length, expired, count, m.out, space, &m.r);
        return known(r) && as_steps(r, length, expired, count, space);
    }
    return known(r) && kept(r != 0, OTHER, n);
}

static void garbage(int way, const char *label, int rounds) {
    int calls = 0, good = 0;
    seed = 0x9E3779B97F4A7C15;
    file = files;
    lent = 20;
    memset(&m, 0xA5, sizeof m);
    for (int i = 0; i < rounds; i++) {
        filled(way);
        for (int k = 0; k < 14; k++, calls++) good += one_call(k < 7 ? (k + i) % 7 : (int)(some() % 7)); /* each in its turn is the first */
    }
    printf("garbage, %s: %d of %d calls returned as they must\n", label, good, calls);
    wrong += good != calls;
}

/* ---- random passes on a handler that began as a new one: every burst is what the same steps are, one by one */

static void random_put(void) {
    static const uint8_t sums[4] = {TSENDRIVATY_MODULAR, TSENDRIVATY_CRC32C, TSENDRIVATY_CRC32, TSENDRIVATY_NULL};
    static const uint8_t actions[3] = {TSENDRIVATY_CANCEL, TSENDRIVATY_IGNORE, TSENDRIVATY_ABANDON};
    struct tsendrivaty_config *c = &m.h.config;
    lent = some() % 21;
    c->remotes[0] = (struct tsendrivaty_remote){.id = {1, 2}, .maxpacket = 24 + some() % 30, .maxsegment = 1 + some() % 4};
    c->remotes[0].limit = (uint8_t)(some() % 4);
    c->remotes[0].checksum = sums[some() % 4];
    c->remotes[0].crc = some() % 2;
    for (int i = 0; i < 16; i++) c->actions[i] = actions[some() % 3];
    c->eofsent = some() % 4 != 0;
    c->finished = some() % 4 != 0;
    tsendrivaty_put(&m.h, 1, 2, some() % 3 == 0, some() % 2, (const uint8_t *)"a", 1, (const uint8_t *)"b", 1, lent);
}

/* A NAK of bytes that have left, an ACK of the EOF or a Finished; the two last most often at their time. */
static void random_delivery(void) {
    static uint8_t pdu[200], body[100];
    uint64_t top = m.h.file.progress + 1, kind = some() % 8;
    size_t n = 3;
    memset(body, 0, sizeof body);
    if (kind == 0 || m.h.step == TSENDRIVATY_WAITING_FOR_EOF_ACK) body[0] = 6, body[1] = 0x40, body[2] = 1;
    if (kind == 1 || m.h.step == TSENDRIVATY_WAITING_FOR_FINISHED) body[0] = 5, body[1] = 2, n = 2;
    if (kind > 3 || !body[0]) {
        body[0] = 8;
        n = 9;
        for (uint64_t k = 1 + some() % 6; k; k--, n += 8) {
            uint64_t start = some() % top;
            body[n + 3] = (uint8_t)start;
            body[n + 7] = (uint8_t)(start + some() % (top - start));
        }
    }
    tsendrivaty_deliver(&m.h, pdu, framed(pdu, (uint8_t)m.h.transaction.number.value, body, n) + some() % 50, &m.d);
}

/* One burst, behind perhaps a put, a delivery, a cancel or a reset; over the one file or the other. */
static int random_burst(size_t *made) {
    uint64_t dice = some() % 64;
    if (m.h.step == TSENDRIVATY_IDLE && dice % 8) random_put();
    if (dice == 1) tsendrivaty_reset(&m.h);
    if (dice == 2) tsendrivaty_cancel(&m.h, 1, m.h.transaction.source.value, 1, m.h.transaction.number.value);
    if (dice >= 16) random_delivery();
    size_t space = some() % 2 ? room : some() % 250, length = some() % 16 ? lent : some() % 21;
    size_t count = some() % 8 ? 1 + some() % 16 : some() % 20;
    uint8_t expired = some() % 3 == 0;
    file = files + (some() % 4 ? 0 : 20);
    m.out[some() % 250] = (uint8_t)some();
    m.r.steps[some() % 16].length = some();
    watch();
    uint32_t r = tsendrivaty_burst(&m.h, file, length, expired, count, m.out, space, &m.r);
    if (!r) *made += m.r.count;
    return as_steps(r, length, expired, count, space);
}

static void one_by_one(int rounds) {
    size_t made = 0;
    int good = 0;
    seed = 0xD1B54A32D192ED03;
    memset(&m, 0xA5, sizeof m);
    memset(&m.h.config, 0, sizeof m.h.config);
    m.h.config.id = (struct tsendrivaty_entity_id){1, 1};
    m.h.config.count = 1;
    tsendrivaty_new(&m.h, 1, 7);
    for (int i = 0; i < rounds; i++) good += random_burst(&made);
    printf("one by one: %d of %d bursts as their steps\n", good, rounds);
    wrong += good != rounds || made < (size_t)rounds;
}

int main(void) {
    byte_cases();
    acknowledged();
    refusals();
    fills();
    frames();
    cancels();
    wide();
    bursts();
    short_bursts();
    bursts_with_expiry();
    long_bursts();
    changed_files();
    changed_with("another file of the same length, modular", TSENDRIVATY_MODULAR);
    changed_with("another file of the same length, CRC-32C", TSENDRIVATY_CRC32C);
    changed_with("another file of the same length, CRC-32", TSENDRIVATY_CRC32);
    changed_with("another file of the same length, no checksum", TSENDRIVATY_NULL);
    garbage(0, "every byte 255", 4);
    garbage(1, "random", 200);
    garbage(2, "random, near a state", 1000);
    one_by_one(8000);
    return wrong != 0;
}
