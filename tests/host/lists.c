/* A test host in C of crate `host`: takes lists of calls (docs/HOST.md), a line each, `ours CALLS FILE` in hex, and prints the answers in hex, a line each.
 * The harness of tests/cfdp-rs takes the same lines; tests/link runs the worked example of docs/HOST.md here, tests/compare the stored sample. */
#include "../../include/tsendrivaty_host.h"

int getchar(void); /* by hand: the kit's compiler has no headers of the C library */
int putchar(int);
int printf(const char *, ...);
int fflush(void *);
_Noreturn void exit(int);

#define ROOM (1 << 20)

static uint8_t calls[ROOM], file[ROOM], answers[ROOM];

/* The value of a hex digit, or -1. */
static int digit(int c) {
    if (c >= '0' && c <= '9') return c - '0';
    return c >= 'a' && c <= 'f' ? c - 'a' + 10 : -1;
}

/* Bytes in hex up to the first letter that is no digit; how many. More than there is room for end the host. */
static size_t taken(uint8_t *to) {
    size_t n = 0;
    for (int high; (high = digit(getchar())) >= 0; n++) {
        if (n == ROOM) exit(2);
        to[n] = (uint8_t)(high << 4 | digit(getchar()));
    }
    return n;
}

int main(void) {
    int c;
    while ((c = getchar()) >= 0) {
        while (c != ' ' && c >= 0) c = getchar(); /* the word */
        size_t calls_length = taken(calls), file_length = taken(file);
        size_t n = tsendrivaty_run(calls, calls_length, file, file_length, answers, sizeof answers);
        for (size_t i = 0; i < n; i++) printf("%02x", answers[i]);
        putchar('\n');
        fflush(0);
    }
    return 0;
}
