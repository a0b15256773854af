/* The lines of a run in C, put into a buffer. */
#include "core.h"

#include <string.h>

uint8_t *put_text(uint8_t *p, const char *s) {
    size_t n = strlen(s);
    memcpy(p, s, n);
    return p + n;
}

/* The two digits of each number below 100, and the two hexadecimal digits of each byte. */
#define TEN(a) a "0" a "1" a "2" a "3" a "4" a "5" a "6" a "7" a "8" a "9"
#define SIXTEEN(a) TEN(a) a "a" a "b" a "c" a "d" a "e" a "f"
static const char tens[] = TEN("0") TEN("1") TEN("2") TEN("3") TEN("4") TEN("5") TEN("6") TEN("7") TEN("8") TEN("9");
static const char bytes[] = SIXTEEN("0") SIXTEEN("1") SIXTEEN("2") SIXTEEN("3") SIXTEEN("4") SIXTEEN("5") SIXTEEN("6")
    SIXTEEN("7") SIXTEEN("8") SIXTEEN("9") SIXTEEN("a") SIXTEEN("b") SIXTEEN("c") SIXTEEN("d") SIXTEEN("e") SIXTEEN("f");

static void put_pair(uint8_t *p, const char *pairs, uint32_t k) { memcpy(p, pairs + 2 * (size_t)k, 2); }

uint8_t *put_number(uint8_t *p, uint32_t n) {
    if (n < 10) {
        *p = (uint8_t)('0' + n);
        return p + 1;
    }
    unsigned size = 2;
    for (uint64_t bound = 100; n >= bound; bound *= 10) size++;
    for (uint8_t *d = p + size; n >= 100; n /= 100) put_pair(d -= 2, tens, n % 100);
    if (n >= 10)
        put_pair(p, tens, n);
    else
        *p = (uint8_t)('0' + n);
    return p + size;
}

static uint8_t *put_hex(uint8_t *p, uint32_t n) {
    put_pair(p, bytes, n >> 24);
    put_pair(p + 2, bytes, n >> 16 & 255);
    put_pair(p + 4, bytes, n >> 8 & 255);
    put_pair(p + 6, bytes, n & 255);
    return p + 8;
}

/* A number or, for none, `-`; with the space before it. */
static uint8_t *put_or_none(uint8_t *p, uint8_t n) {
    *p++ = ' ';
    if (n != CORE_NONE) return put_number(p, n);
    *p = '-';
    return p + 1;
}

static uint8_t *put_part(uint8_t *p, uint32_t n) {
    *p = ' ';
    return put_number(p + 1, n);
}

uint8_t *put_answer(uint8_t *p, uint32_t number, const core_answer *a) {
    p = put_part(put_number(p, number), a->refusal);
    p = put_or_none(p, a->running);
    *p++ = ' ';
    if (a->running != CORE_NONE)
        p = put_hex(p, a->address);
    else
        *p++ = '-';
    p = put_or_none(p, a->delivered);
    p = put_part(p, a->notice.kind);
    p = put_part(p, a->result);
    p = put_part(p, a->removed);
    *p = '\n';
    return p + 1;
}

uint8_t *put_refused(uint8_t *p, uint8_t fault, size_t offset) {
    p = put_part(put_part(put_text(p, "config"), fault), (uint32_t)offset);
    *p = '\n';
    return p + 1;
}

static uint8_t *put_vm(uint8_t *p, unsigned i, const core_vm *v) {
    uint32_t fields[10];
    memcpy(fields, &v->status, sizeof fields);
    p = put_part(put_part(put_text(p, "vm"), i), v->standing);
    *p = ' ';
    p = put_hex(p + 1, v->address);
    for (int k = 0; k < 10; k++) {
        *p = ' ';
        p = put_hex(p + 1, fields[k]);
    }
    p = put_part(put_part(p, v->age), v->ran);
    *p = '\n';
    return p + 1;
}

uint8_t *put_state(uint8_t *p, const core_answer *a, const core_state *c) {
    p = put_part(put_part(put_part(put_text(p, "notice"), a->notice.vm), a->notice.code), a->notice.data);
    p = put_part(put_part(put_text(p, "\ncore"), c->clock.started), c->clock.ticked);
    p = put_or_none(put_part(put_part(p, c->clock.slot), c->clock.left), c->running);
    p = put_text(p, "\nqueue");
    for (unsigned k = 0; k < c->queue.len; k++) p = put_part(p, c->queue.items[k]);
    p = put_text(p, "\ncounts");
    for (unsigned i = 0; i < CORE_VMS; i++) p = put_part(p, c->queue.counts[i]);
    *p++ = '\n';
    for (unsigned i = 0; i < CORE_VMS; i++) p = put_vm(p, i, &c->vms[i]);
    return p;
}

/* The bytes, two digits each, to the end of the line. */
static uint8_t *put_bytes(uint8_t *p, const uint8_t *b, size_t n) {
    for (size_t k = 0; k < n; k++, p += 2) put_pair(p, bytes, b[k]);
    *p = '\n';
    return p + 1;
}

uint8_t *put_image(uint8_t *p, const uint8_t *b, size_t n) {
    p = put_text(p, "image ");
    return put_bytes(p, b, n);
}

enum { ROW = 32 }; /* so many bytes of the window make a line */

uint8_t *put_window(uint8_t *p, const uint8_t *memory) {
    for (uint32_t at = 0; at < WINDOW_SIZE; at += ROW) {
        static const uint8_t none[ROW];
        if (memcmp(memory + at, none, ROW) == 0) continue;
        p = put_hex(put_text(p, "memory "), WINDOW_BASE + at);
        *p = ' ';
        p = put_bytes(p + 1, memory + at, ROW);
    }
    return p;
}
