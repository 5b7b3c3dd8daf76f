/* Tsendrivaty: a list of calls, given as bytes, run on a fresh handler. For tests in C or Rust; a product takes the seven functions of tsendrivaty.h.
 *
 * The archive is made by `rt lib` in crates/host_c (crates/host_c/out/libhost_c.a, x86-64 Linux, position independent). It allocates nothing, keeps
 * nothing from one list to the next, calls nothing but memcpy, memmove and memset of the C library, and uses no thread, clock or file.
 * docs/HOST.md has the bytes of calls and answers, with a worked example; tests/host/lists.c is a host.
 *
 * WHAT YOU MUST KEEP
 *  - A slice is a pointer and a length. The pointer is not null, also where the length is 0, and that many bytes can be read (in `answers`: written).
 *  - `answers` overlaps neither of the other two.
 */
#ifndef TSENDRIVATY_HOST_H
#define TSENDRIVATY_HOST_H

#include "tsendrivaty.h" /* the types of numbers, and the words for refusals; its seven functions are in another archive */

#ifdef __cplusplus
extern "C" {
#endif

/* Makes a fresh handler, runs the calls in order, each step over the front of `file` or from a place on that the list says, and writes a record for each call into `answers`, behind them 255
 * and the status: 0 if all were run. Returns how many bytes of `answers` it wrote. Any bytes are a list: one that is cut short, or has an unknown call, is
 * run as far as it goes, and so is one whose answers have no room; room for 5,200 bytes a call is enough for every list. */
uint64_t tsendrivaty_run(const uint8_t *calls, size_t calls_length, const uint8_t *file, size_t file_length, uint8_t *answers, size_t answers_length);

#ifdef __cplusplus
}
#endif
#endif
