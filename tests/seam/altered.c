/* Stands before the archive's functions and alters one thing, chosen by ALTERED (0: nothing); tests/link --break must notice each. The archive's own
 * functions are called by the names that tests/link gives them in a copy. */
#include "../../include/tsendrivaty.h"

#define IS(n) (ALTERED == n)
#define H struct tsendrivaty_handler *h
#define SLICE const uint8_t *p, size_t n
uint32_t right_calls_new(H, uint8_t width, uint64_t number);
uint32_t right_calls_put(H, uint8_t width, uint64_t to, uint8_t mode, uint8_t closure, SLICE, const uint8_t *q, size_t m, uint64_t size);
uint32_t right_calls_deliver(H, SLICE, struct tsendrivaty_deliver_report *report);
uint32_t right_calls_step(H, SLICE, uint8_t expired, uint8_t *out, size_t room);
uint32_t right_calls_burst(H, SLICE, uint8_t expired, size_t count, uint8_t *out, size_t room, struct tsendrivaty_burst_report *report);
uint32_t right_calls_cancel(H, uint8_t width, uint64_t source, uint8_t number_width, uint64_t number);
uint32_t right_calls_reset(H);

/* ---- what R-2 forbids: `was` is the handler before a step or a burst that was accepted */

static struct tsendrivaty_handler was;
static uint32_t last; /* the sum of the last transaction that ended */

static uint32_t modular(uint32_t sum, uint64_t at, SLICE) {
    for (size_t i = 0; i < n; i++) sum += (uint32_t)p[i] << 8 * (3 - (at + i) % 4);
    return sum;
}

/* An EOF with the modular sum, without CRC and large flag, gets the sum of the lent file's first bytes. */
static void over_the_lent(SLICE, uint8_t *pdu, size_t length) {
    size_t head = length > 3 ? 4 + 2 * ((pdu[3] >> 4) % 8 + 1) + pdu[3] % 8 + 1 : 0, size = 0;
    if (length != head + 10 || pdu[0] & 0x13 || pdu[head] != 4 || was.transaction.checksum != TSENDRIVATY_MODULAR) return;
    for (int k = 0; k < 4; k++) size = size << 8 | pdu[head + 6 + k];
    uint32_t sum = modular(0, 0, p, size < n ? size : n);
    for (int k = 0; k < 4; k++) pdu[head + 2 + k] = (uint8_t)(sum >> 8 * (3 - k));
}

static void otherwise(H, SLICE, uint8_t *out) {
    size_t length = h->report.length;
    uint64_t from = was.file.progress, to = h->file.progress;
    int owed = was.marks.cancelled && was.marks.owed;
    if (IS(24) && was.queue.count && !owed && length) h->file.sum++;
    if (IS(25) && was.step == TSENDRIVATY_SENDING_EOF && !owed) over_the_lent(p, n, out, length);
    if (IS(26) && owed) over_the_lent(p, n, out, length);
    if (IS(27) && h->report.fault) over_the_lent(p, n, out, length);
    if (IS(28) && was.step == TSENDRIVATY_WAITING_FOR_EOF_ACK && h->marks.count == was.marks.count + 1) over_the_lent(p, n, out, length);
    if (IS(29) && to > from && to <= n && !was.transaction.checksum) h->file.sum = modular(was.file.sum, 0, p + from, to - from);
    if (IS(30) && to > from && to <= n && !was.transaction.checksum) h->file.sum = modular(0, 0, p, to);
}

uint32_t tsendrivaty_new(H, uint8_t width, uint64_t number) {
    return right_calls_new(h, width, number);
}

uint32_t tsendrivaty_put(H, uint8_t width, uint64_t to, uint8_t mode, uint8_t closure, SLICE, const uint8_t *q, size_t m, uint64_t size) {
    uint64_t number = h->number.value;
    uint32_t r = right_calls_put(h, width, to, mode, closure, p, n, q, m, size);
    if (IS(6) && r) h->number.value++;
    if (IS(8) && !r) h->config.remotes[7].limit ^= 1;
    if (IS(9) && !r) h->number.value = number;
    if (IS(31) && !r) h->file.sum = last;
    return r;
}

/* How many bytes the header says, of a delivery that has one. */
static uint64_t by_the_header(SLICE) {
    return n < 4 ? 0 : 4 + 2 * ((uint64_t)(p[3] >> 4) % 8 + 1) + p[3] % 8 + 1 + (p[1] << 8 | p[2]);
}

/* The same delivery with a data field of eight bytes more, as if the fill were a pair of the NAK. */
static uint32_t with_a_pair_more(H, SLICE, struct tsendrivaty_deliver_report *report) {
    static uint8_t bytes[1 << 17];
    for (size_t i = 0; i < n; i++) bytes[i] = p[i];
    bytes[2] = (uint8_t)(p[2] + 8);
    return right_calls_deliver(h, bytes, n, report);
}

uint32_t tsendrivaty_deliver(H, SLICE, struct tsendrivaty_deliver_report *report) {
    const struct tsendrivaty_deliver_report before = *report;
    const struct tsendrivaty_handler held = *h;
    uint32_t r = right_calls_deliver(h, p, n, report);
    uint64_t own = report->length;
    if (IS(38) && own) report->length++;
    if (IS(39) && own) report->length = n;
    if (IS(40) && own && p[0] & 2) report->length -= 2;
    if (IS(41) && r) *report = before;
    if (IS(42) && !own) report->length = by_the_header(p, n);
    if (IS(43)) report->length = own % 65536;
    if (IS(44) && own && own < n) *h = held, report->length = 0, r = TSENDRIVATY_MALFORMED;
    if (IS(45) && !r && own > 8 && own + 8 <= n && p[7] == 8 && p[3] == 0) *h = held, r = with_a_pair_more(h, p, n, report);
    if (IS(46) && r) h->report.length = own;
    if (IS(49) && !own) *report = before;
    if (IS(50)) report[1].length ^= 1;
    return IS(5) && r == TSENDRIVATY_MALFORMED ? 0 : r;
}

uint32_t tsendrivaty_step(H, SLICE, uint8_t expired, uint8_t *out, size_t room) {
    size_t repairs = h->queue.count;
    was = *h;
    uint32_t r = right_calls_step(h, p, n, expired, out, room);
    if (!r) otherwise(h, p, n, out);
    if (!r && !h->step && was.step) last = was.file.sum;
    if (IS(32) && r) h->file.sum++;
    if (IS(33) && !r && !h->step && was.step) h->file.sum = was.file.sum;
    if (IS(1) && !r && h->report.length > 11) out[11] ^= 0x10;
    if (IS(2) && !r && h->report.length > 0) h->report.length--;
    if (IS(3) && !r) h->report.timer = 0;
    if (IS(4) && r) h->file.progress++;
    if (IS(7) && !r && repairs && repairs <= 64 && h->queue.count == repairs) {
        for (size_t i = 1; i < repairs; i++) h->queue.places[i - 1] = h->queue.places[i];
        h->queue.count--;
    }
    if (IS(10) && !r && h->report.length < room) out[h->report.length] ^= 1;
    return r;
}

/* Up to sixteen steps, each with the expiry flag. */
static uint32_t burst_of_expired(H, SLICE, size_t count, uint8_t *out, size_t room, struct tsendrivaty_burst_report *report) {
    size_t at = 0, k = 0;
    while (k < count) {
        uint32_t r = right_calls_step(h, p, n, 1, out + at, room - at);
        if (r && !k) return r;
        if (r) break;
        report->steps[k++] = h->report;
        at += h->report.length;
        if (!h->report.length) break;
    }
    report->count = k;
    return 0;
}

uint32_t tsendrivaty_burst(H, SLICE, uint8_t expired, size_t count, uint8_t *out, size_t room, struct tsendrivaty_burst_report *report) {
    if (IS(23) && expired && count <= 16) return burst_of_expired(h, p, n, count, out, room, report);
    if (IS(15) && !count && h->step != TSENDRIVATY_IDLE && n != h->transaction.size) return TSENDRIVATY_FILE_CHANGED;
    static const struct tsendrivaty_report none;
    was = *h;
    uint32_t r = right_calls_burst(h, p, n, expired, IS(13) && count == 17 ? 16 : IS(14) && count == 16 ? 15 : count, out, room, report);
    size_t made = r ? 0 : report->count, taken = 0;
    for (size_t i = 0; i < made; i++) {
        if (IS(37)) over_the_lent(p, n, out + taken, report->steps[i].length);
        taken += report->steps[i].length;
    }
    if (IS(16) && made > 1 && report->steps[1].length) out[report->steps[0].length] ^= 1;
    if (IS(17) && made > 1 && !report->steps[made - 1].length) report->count--;
    if (IS(18) && made > 1) report->steps[0].timer = report->steps[made - 1].timer;
    if (IS(19) && made) h->report = none;
    if (IS(20) && r) h->marks.count++;
    if (IS(21) && made && taken < room) out[taken] ^= 1;
    if (IS(22) && r == TSENDRIVATY_OUT_TOO_SMALL) report->count = 0, r = 0;
    if (IS(34) && made && h->step) h->file.sum = was.file.sum;
    if (IS(47) && made && made < 16) report->steps[made] = none;
    if (IS(48) && r) report->count++;
    return r;
}

uint32_t tsendrivaty_cancel(H, uint8_t width, uint64_t source, uint8_t number_width, uint64_t number) {
    uint32_t r = right_calls_cancel(h, width, source, number_width, number);
    if (IS(35) && r) h->file.sum = 0;
    return IS(11) && h->step == TSENDRIVATY_IDLE ? 1 : r;
}

uint32_t tsendrivaty_reset(H) {
    uint32_t sum = h->file.sum, r = IS(12) ? 0 : right_calls_reset(h);
    if (IS(36)) h->file.sum = sum;
    return r;
}
