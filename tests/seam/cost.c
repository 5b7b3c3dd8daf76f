/* What tests/cost.py measures: `cost CASE N [CHECKSUM]` prepares a case and makes its call N times (0 or 1; the difference of two runs is the call),
 * with the case's checksum type or the one given; the cases `pass` and `pass_crc` are a whole pass, from the put to the EOF; `cost stack` prints how deep each call goes; `cost size` the bytes of the
 * handler and of its parts. For the stack a call is made on a painted stack, and the paint that is gone is counted, the host's own few bytes with it. */
#include "../../include/tsendrivaty.h"

int printf(const char *, ...);
int strcmp(const char *, const char *);
int atoi(const char *);
void *memset(void *, int, size_t);
void *memcpy(void *, const void *, size_t);

#define SIZE 64000
#define LONG 200000
#define PASS (1024 * 1024)
#define PAINT (256 * 1024)

static struct tsendrivaty_handler h;
static uint8_t file[PASS], out[4096], burst_out[16 * 4096];
static uint32_t answer;

/* ---- the calls */

static void configured(uint8_t crc, uint8_t checksum, uint64_t segment) {
    memset(&h, 0, sizeof h);
    h.config.id = (struct tsendrivaty_entity_id){1, 1};
    h.config.remotes[0] = (struct tsendrivaty_remote){{1, 2}, 4096, segment, checksum, crc, 0, 0, 3};
    h.config.count = 1;
    memset(h.config.actions, TSENDRIVATY_CANCEL, 16);
    h.config.eofsent = h.config.finished = 1;
    tsendrivaty_new(&h, 1, 7);
}

static void put(uint8_t unacknowledged, size_t size) {
    answer = tsendrivaty_put(&h, 1, 2, unacknowledged, 1, (const uint8_t *)"a", 1, (const uint8_t *)"b", 1, size);
}

static void step(uint8_t expired) {
    answer = tsendrivaty_step(&h, file, h.transaction.size, expired, out, sizeof out);
}

/* Sixteen steps in one call. */
static struct tsendrivaty_burst_report bursted;

static void burst(void) {
    answer = tsendrivaty_burst(&h, file, h.transaction.size, 0, 16, burst_out, sizeof burst_out, &bursted);
}

/* The same by sixteen calls. */
static void sixteen(void) {
    for (int i = 0; i < 16; i++) step(0);
}

static size_t fill; /* so many bytes behind each PDU */

static void directive(const uint8_t *body, size_t n) {
    static uint8_t pdu[1024];
    static struct tsendrivaty_deliver_report report;
    const uint8_t head[] = {0x28, (uint8_t)(n >> 8), (uint8_t)n, 0, 1, 7, 2};
    memcpy(pdu, head, sizeof head);
    memcpy(pdu + sizeof head, body, n);
    answer = tsendrivaty_deliver(&h, pdu, sizeof head + n + fill, &report);
}

/* `count` requests of `length` bytes each, one byte further on each. */
static uint8_t request[9 + 8 * 64];

static void asked(uint32_t count, uint32_t length) {
    request[0] = 8;
    for (uint32_t k = 0; k < count; k++) {
        const uint32_t pair[2] = {k, k + length};
        for (int i = 0; i < 8; i++) request[9 + 8 * k + i] = (uint8_t)(pair[i / 4] >> 8 * (3 - i % 4));
    }
}

static void nak(uint32_t count) {
    directive(request, 9 + 8 * count);
}

static void ack_of_eof(void) { directive((const uint8_t[]){6, 0x40, 1}, 3); }
static void finished(void) { directive((const uint8_t[]){5, 2}, 2); }
static void keep_alive(void) { directive((const uint8_t[]){12, 0, 0, 0, 9}, 5); }

/* Unacknowledged, without closure: put, metadata, data, EOF. */
static void pass(void) {
    answer = tsendrivaty_put(&h, 1, 2, 1, 0, (const uint8_t *)"a", 1, (const uint8_t *)"b", 1, PASS);
    while (!answer && h.step) answer = tsendrivaty_step(&h, file, PASS, 0, out, sizeof out);
}

/* ---- cases: what comes before the call, and the call */

static void at_data(uint8_t crc, uint8_t checksum, uint64_t segment, size_t size, int steps) {
    configured(crc, checksum, segment);
    put(0, size);
    while (steps--) step(0);
}

static const struct {
    const char *name;
    uint8_t crc, checksum;
    uint64_t segment;
    size_t size;
    int steps;      /* before the call; -1: no put either */
    char before;    /* before the call: delivered n NAK of a request, l of 40 short ones, a ACK of EOF; c cancel */
    char call;      /* p put, s step, e step that sends an EOF, x refused step, n deliver of a NAK, a of an ACK of EOF, i the same with fill behind it, f of a Finished PDU, k of a Keep Alive, u of an ACK that is refused, r reset, c cancel, w a whole
                       pass, b a burst of sixteen steps, 6 the same by sixteen calls, m memcpy of a data PDU's bytes */
    uint32_t naks;
} CASES[] = {
    {"data", 0, 15, 4096, SIZE, 3, 0, 's', 0},       {"data_crc", 1, 15, 4096, SIZE, 3, 0, 's', 0},  {"data_100", 0, 15, 100, SIZE, 3, 0, 's', 0},
    {"data_1", 0, 15, 1, SIZE, 3, 0, 's', 0},        {"repair", 0, 15, 4096, SIZE, 3, 'n', 's', 0},    {"metadata", 0, 15, 4096, SIZE, 0, 0, 's', 0},
    {"nak_64", 0, 15, 4096, SIZE, 3, 0, 'n', 64},    {"nak_1", 0, 15, 4096, SIZE, 3, 0, 'n', 1},     {"put", 0, 15, 4096, SIZE, -1, 0, 'p', 0},
    {"eof_null", 0, 15, 4096, 4000, 2, 0, 's', 0},   {"cancel", 0, 15, 4096, SIZE, 3, 0, 'c', 0},    {"reset", 0, 15, 4096, SIZE, 3, 0, 'r', 0},
    {"refused", 0, 15, 4096, SIZE, 3, 0, 'x', 0},    {"copy", 0, 15, 4096, SIZE, 3, 0, 'm', 0},      {"ack", 0, 15, 4096, 4000, 3, 0, 'a', 0},
    {"ack_fill", 0, 15, 4096, 4000, 3, 0, 'i', 0},
    {"finished", 0, 15, 4096, 4000, 3, 'a', 'f', 0}, {"keep_alive", 0, 15, 4096, SIZE, 3, 0, 'k', 0}, {"ack_refused", 0, 15, 4096, SIZE, 3, 0, 'u', 0},
    {"burst", 0, 15, 4096, LONG, 3, 0, 'b', 0},      {"burst_100", 0, 15, 100, LONG, 3, 0, 'b', 0},  {"burst_repair", 0, 15, 100, SIZE, 90, 'n', 'b', 0},
    {"sixteen", 0, 15, 4096, LONG, 3, 0, '6', 0},    {"sixteen_100", 0, 15, 100, LONG, 3, 0, '6', 0}, {"sixteen_repair", 0, 15, 100, SIZE, 90, 'n', '6', 0},
    {"burst_lost", 0, 15, 100, SIZE, 90, 'l', 'b', 0}, {"sixteen_lost", 0, 15, 100, SIZE, 90, 'l', '6', 0},
    {"burst_crc", 1, 15, 4096, LONG, 3, 0, 'b', 0},  {"sixteen_crc", 1, 15, 4096, LONG, 3, 0, '6', 0},
    {"pass", 0, 15, 4096, SIZE, -1, 0, 'w', 0},      {"pass_crc", 1, 15, 4096, SIZE, -1, 0, 'w', 0},
    /* after 1, 10 and 100 pieces of 4,085 bytes: the EOF of a file that is no longer, the EOF of a cancel with one byte to go */
    {"eof_1", 0, 15, 4096, 4085, 2, 0, 'e', 0},      {"eof_10", 0, 15, 4096, 40850, 11, 0, 'e', 0},  {"eof_100", 0, 15, 4096, 408500, 101, 0, 'e', 0},
    {"cancelled_1", 0, 15, 4096, 4086, 2, 'c', 'e', 0}, {"cancelled_10", 0, 15, 4096, 40851, 11, 'c', 'e', 0},
    {"cancelled_100", 0, 15, 4096, 408501, 101, 'c', 'e', 0},
};
#define COUNT (sizeof CASES / sizeof CASES[0])

static void prepared(size_t k, uint8_t checksum) {
    asked(64, 8000);
    if (CASES[k].steps < 0)
        configured(CASES[k].crc, checksum, CASES[k].segment);
    else
        at_data(CASES[k].crc, checksum, CASES[k].segment, CASES[k].size, CASES[k].steps);
    if (CASES[k].before == 'n') nak(1);
    if (CASES[k].before == 'l') {
        asked(64, 60);
        nak(40);
    }
    if (CASES[k].before == 'a') ack_of_eof();
    if (CASES[k].before == 'c') answer = !tsendrivaty_cancel(&h, 1, 1, 1, 7);
}

static size_t piece = 4085;

__attribute__((noinline)) static void called(size_t k) {
    switch (CASES[k].call) {
    case 'p': put(0, CASES[k].size); break;
    case 's': step(0); break;
    case 'e': step(0); answer |= !h.report.eofsent; break;
    case 'n': nak(CASES[k].naks); break;
    case 'c': answer = !tsendrivaty_cancel(&h, 1, 1, 1, 7); break;
    case 'r': answer = tsendrivaty_reset(&h); break;
    case 'x': tsendrivaty_step(&h, file, 1, 0, out, sizeof out); break;
    case 'a': ack_of_eof(); break;
    case 'i': fill = 300; ack_of_eof(); break;
    case 'f': finished(); break;
    case 'k': keep_alive(); break;
    case 'u': ack_of_eof(); answer = answer != 22; break;
    case 'w': pass(); break;
    case 'b': burst(); break;
    case '6': sixteen(); break;
    case 'm': memcpy(out, file, *(volatile size_t *)&piece); break;
    }
}

/* ---- stack: a call is made on a painted stack of its own */

static _Alignas(16) uint8_t stack[PAINT];

static void deep(const char *name, void (*call)(void)) {
    memset(stack, 0xA5, PAINT);
    __asm__ volatile("movq %%rsp, %%r12\n\tmovq %0, %%rsp\n\tcall *%1\n\tmovq %%r12, %%rsp"
                     :
                     : "r"(stack + PAINT), "r"(call)
                     : "r12", "rax", "rcx", "rdx", "rsi", "rdi", "r8", "r9", "r10", "r11", "memory", "cc", "xmm0", "xmm1", "xmm2", "xmm3", "xmm4", "xmm5", "xmm6",
                       "xmm7", "xmm8", "xmm9", "xmm10", "xmm11", "xmm12", "xmm13", "xmm14", "xmm15");
    int i = 0;
    while (i < PAINT && stack[i] == 0xA5) i++;
    printf("%s %d %u\n", name, PAINT - i, answer);
}

static void make(void) { answer = tsendrivaty_new(&h, 1, 7); }
static void put_acknowledged(void) { put(0, 9000); }
static void quiet_step(void) { step(0); }
static void expired_step(void) { step(1); }
static void nak_of_64(void) { nak(64); }
static void nak_of_1(void) { nak(1); }
static void cancel(void) { answer = !tsendrivaty_cancel(&h, 1, 1, 1, 7); }
static void reset(void) { answer = tsendrivaty_reset(&h); }

static void stacks(void) {
    static const uint8_t kinds[4] = {0, 2, 3, 15};
    deep("new", make);
    for (int k = 0; k < 8; k++) {
        configured(k % 2, kinds[k / 2], 4096);
        deep("put", put_acknowledged);
        deep("put", put_acknowledged); /* refused */
        deep("step", quiet_step);
        deep("step", quiet_step);
        const struct tsendrivaty_handler before = h;
        deep("burst", burst);
        h = before;
        asked(64, 4000);
        deep("deliver", nak_of_64);
        deep("deliver", nak_of_1); /* refused */
        const struct tsendrivaty_handler asked_for = h;
        deep("burst", burst);
        h = asked_for;
        deep("step", quiet_step);
        for (int i = 0; i < 65; i++) step(0);
        for (int i = 0; i < 4; i++) deep("step", expired_step); /* EOF, the same twice, a fault that cancels */
        deep("deliver", ack_of_eof);
        deep("deliver", finished);
        deep("step", quiet_step);
        deep("step", quiet_step);
        configured(k % 2, kinds[k / 2], 4096);
        put(1, 9000);
        step(0);
        step(0);
        deep("cancel", cancel);
        const struct tsendrivaty_handler cancelled = h;
        deep("burst", burst);
        h = cancelled;
        deep("step", quiet_step);
        deep("reset", reset);
    }
}

int main(int argc, char **argv) {
    for (int i = 0; i < SIZE; i++) file[i] = (uint8_t)(i * 7);
    if (argc == 2 && !strcmp(argv[1], "stack")) {
        stacks();
    } else if (argc == 2 && !strcmp(argv[1], "size")) {
        printf("handler %lu\nconfiguration %lu\nreport %lu\nstate %lu\n", sizeof h, sizeof h.config, sizeof h.report, sizeof h - sizeof h.config - sizeof h.report);
        printf("queue %lu\nnames %lu\n", sizeof h.queue, sizeof h.names);
    } else if (argc == 3 || argc == 4) {
        for (size_t k = 0; k < COUNT; k++)
            if (!strcmp(argv[1], CASES[k].name)) {
                prepared(k, argc == 4 ? (uint8_t)atoi(argv[3]) : CASES[k].checksum);
                if (argv[2][0] == '1') called(k);
                return answer != 0;
            }
        return 2;
    }
    return 0;
}
