/* The lists of calls of docs/HOST.md, run through the seven functions: what the program `drive` does, over lent memory. So tests/random_passes.py can hold
 * thousands of random calls through the seam to the model. Standard input: four bytes of the file's length, the file, the number, the calls. A kind of
 * its own: 65, answers with what the record holds, progress (8) and checksum (4). */
#include "../../include/tsendrivaty.h"

long read(int, void *, size_t);
long write(int, const void *, size_t);

static struct tsendrivaty_handler h;
static uint8_t in[1 << 20], answers[1 << 20], out[4608];
static size_t at, end, said;

static uint64_t take(int bytes) {
    uint64_t v = 0;
    while (bytes--) v = v << 8 | (at < end ? in[at] : 0), at++;
    return v;
}

static void say(int bytes, uint64_t v) {
    while (bytes--) answers[said++] = (uint8_t)(v >> 8 * bytes);
}

static struct tsendrivaty_entity_id id(void) {
    struct tsendrivaty_entity_id i;
    i.width = (uint8_t)take(1);
    i.value = take(8);
    return i;
}

static void configure(struct tsendrivaty_config *c) {
    c->id = id();
    for (int i = 0; i < 16; i++) c->actions[i] = (uint8_t)take(1);
    unsigned flags = (unsigned)take(1);
    c->eofsent = flags & 1;
    c->finished = flags & 2; /* any number but 0 is set */
    c->count = take(1);
    for (int i = 0; i < 8; i++) {
        struct tsendrivaty_remote *r = &c->remotes[i];
        r->id = id();
        r->maxpacket = take(8);
        r->maxsegment = take(8);
        r->checksum = (uint8_t)take(1);
        flags = (unsigned)take(1);
        r->crc = flags & 1;
        r->unacknowledged = flags & 2;
        r->closure = flags & 4;
        r->limit = (uint8_t)take(1);
    }
}

/* 0 the entry's, 1 no, 2 yes */
static uint8_t choice(void) {
    unsigned c = (unsigned)take(1);
    return (uint8_t)(c == 1 || c == 2 ? c - 1 : 77);
}

static void put(void) {
    configure(&h.config);
    struct tsendrivaty_entity_id to = id();
    uint8_t mode = choice(), closure = choice();
    uint64_t size = take(8);
    size_t sn = take(2), s = at;
    at += sn;
    size_t dn = take(2), d = at;
    at += dn;
    say(1, tsendrivaty_put(&h, to.width, to.value, mode, closure, in + s, sn, in + d, dn, size));
}

/* The report holds another number before each delivery, so that one which is not written shows. */
static void deliver(void) {
    struct tsendrivaty_deliver_report report = {~(uint64_t)0};
    size_t n = take(4), d = at;
    at += n;
    say(1, tsendrivaty_deliver(&h, in + d, n, &report));
    say(4, report.length);
}

static size_t least(size_t a, size_t b) {
    return a < b ? a : b;
}

/* A step that was made: its PDU, its events. */
static void tell(const struct tsendrivaty_report *e, const uint8_t *pdu) {
    say(2, e->length);
    for (size_t i = 0; i < e->length; i++) say(1, pdu[i]);
    unsigned events = e->transaction | e->eofsent << 1 | e->fault << 2 | e->finished << 3 | (e->timer == 1) << 4 | (e->timer == 2) << 5;
    say(1, events);
    if (!events) return;
    say(1, e->source.width), say(8, e->source.value), say(1, e->number.width), say(8, e->number.value);
    if (e->fault) say(1, e->action), say(1, e->condition), say(8, e->progress);
    if (e->finished) say(1, e->values.condition), say(1, e->values.delivery), say(1, e->values.status);
}

static void step(const uint8_t *file, size_t length) {
    static const struct tsendrivaty_report refused;
    uint8_t expired = (uint8_t)take(1);
    size_t lent = take(4), room = take(4);
    uint32_t r = tsendrivaty_step(&h, file, least(lent, length), expired, out, least(room, sizeof out));
    say(1, r);
    tell(r ? &refused : &h.report, out);
}

static void burst(const uint8_t *file, size_t length) {
    static struct tsendrivaty_burst_report made;
    uint8_t expired = (uint8_t)take(1);
    size_t count = take(1), lent = take(4), room = take(4), from = 0;
    uint32_t r = tsendrivaty_burst(&h, file, least(lent, length), expired, count, out, least(room, sizeof out), &made);
    if (r) made.count = 0;
    say(1, r);
    say(1, made.count);
    for (size_t i = 0; i < made.count; from += made.steps[i++].length) tell(&made.steps[i], out + from);
}

static void look(void) {
    say(8, h.file.progress), say(4, h.file.sum);
}

int main(void) {
    long got;
    while (end < sizeof in && (got = read(0, in + end, sizeof in - end)) > 0) end += (size_t)got;
    size_t length = take(4), file = at, from = 0;
    at += length;
    struct tsendrivaty_entity_id number = id();
    tsendrivaty_new(&h, number.width, number.value);
    while (at < end && said < sizeof answers - 6000) {
        unsigned kind = (unsigned)take(1);
        say(1, kind);
        if (kind == 1) {
            put();
        } else if (kind == 2) {
            deliver();
        } else if (kind == 3) {
            step(in + file + from, length - from);
        } else if (kind == 4) {
            struct tsendrivaty_entity_id s = id(), n = id();
            say(1, tsendrivaty_cancel(&h, s.width, s.value, n.width, n.value));
        } else if (kind == 6) {
            burst(in + file + from, length - from);
        } else if (kind == 7) {
            from = least(take(4), length);
        } else if (kind == 65) {
            look();
        } else {
            tsendrivaty_reset(&h);
        }
    }
    say(1, 255), say(1, at != end);
    for (size_t sent = 0; sent < said && (got = write(1, answers + sent, said - sent)) > 0;) sent += (size_t)got;
    return 0;
}
