/* Images in C: the reader with its faults, and the writer. */
#include "core.h"

#include <string.h>

/* x86-64 has the low byte first, as an image has. */
static uint32_t word(const uint8_t *b) {
    uint32_t n;
    memcpy(&n, b, sizeof n);
    return n;
}

static uint16_t half(const uint8_t *b) {
    uint16_t n;
    memcpy(&n, b, sizeof n);
    return n;
}

/* A fault and the offset of its record, or two zeros. */
typedef struct verdict {
    uint8_t fault;
    size_t offset;
} verdict;

/* I9: puts a region behind the others; its fault, or 0. While its VM holds fewer than eight there is a place for it. */
static uint8_t put_region(core_regions *r, unsigned vms, uint8_t *held, const uint8_t *body) {
    uint8_t holder = body[0], permission = body[1];
    unsigned k = r->count;
    if (holder >= vms) return 32;
    if (++held[holder] > CORE_REGIONS_EACH) return 35;
    if (permission < CORE_MAY_READ || permission > CORE_MAY_EXECUTE) return 33;
    r->holders[k] = holder;
    r->permissions[k] = permission;
    r->starts[k] = word(body + 2);
    r->lasts[k] = word(body + 6);
    r->count++;
    if (r->starts[k] > r->lasts[k]) return 34;
    return clashes(r, k) ? 36 : 0;
}

/* The regions from `at` on: the first fault and its offset, or 0 and the offset of what stands behind them. */
static verdict fill_regions(core_regions *r, unsigned vms, const uint8_t *b, size_t n, size_t at) {
    uint8_t held[CORE_VMS] = {0}, fault;
    for (; at < n && b[at] == 5; at += 11) {
        if (n - at < 11) return (verdict){20, at};
        if ((fault = put_region(r, vms, held, b + at + 1))) return (verdict){fault, at};
    }
    return (verdict){0, at};
}

/* I9: the fault of slot k, or 0. */
static uint8_t slot_fault(unsigned k, unsigned count, uint8_t owner, uint16_t ticks) {
    if (k == CORE_SLOTS) return 26;
    if (owner == CORE_NONE) return ticks == 1 ? 0 : 24;
    if (owner >= count) return 23;
    return ticks >= 1 && ticks <= 1000 ? 0 : 25;
}

/* Fills a configuration of zeros. */
static verdict fill(core_config *c, const uint8_t *b, size_t n) {
    if (n < 1) return (verdict){20, 0};
    if (b[0] != 1) return (verdict){21, 0};
    if (n < 3) return (verdict){20, 0};
    unsigned count = b[1], slots = 0;
    if (count < 1 || count > CORE_VMS || b[2] > CORE_ROOM) return (verdict){22, 0};
    c->count = b[1];
    c->room = b[2];
    size_t at = 3;
    for (unsigned i = 0; i < count; i++, at += 9) {
        if (at == n) return (verdict){20, at};
        if (b[at] != 2) return (verdict){21, at};
        if (n - at < 9) return (verdict){20, at};
        c->entries[i] = word(b + at + 1);
        c->handlers[i] = word(b + at + 5);
    }
    verdict v = fill_regions(&c->regions, count, b, n, at);
    if (v.fault) return v;
    at = v.offset;
    uint32_t named = 0;
    for (; at < n && b[at] == 3; at += 4, slots++) {
        if (n - at < 4) return (verdict){20, at};
        uint8_t owner = b[at + 1], fault;
        uint16_t ticks = half(b + at + 2);
        if ((fault = slot_fault(slots, count, owner, ticks))) return (verdict){fault, at};
        named |= 1u << owner % 32;
        c->owners[slots] = owner;
        c->durations[slots] = ticks;
    }
    c->slots = (uint8_t)slots;
    if (at == n) return (verdict){20, at};
    if (b[at] != 4) return (verdict){21, at};
    if ((named & 255) != (1u << count) - 1) return (verdict){27, at};
    if (at + 1 < n) return (verdict){28, at + 1};
    return (verdict){0, 0};
}

core_begun read_image(const uint8_t *b, size_t n) {
    core_begun r = {.core.running = CORE_NONE};
    verdict v = fill(&r.core.config, b, n);
    r.fault = v.fault;
    r.offset = v.offset;
    if (v.fault) memset(&r.core.config, 0, sizeof r.core.config); /* I10 */
    return r;
}

uint8_t write_image(const core_config *c, uint8_t *b, size_t room, size_t *size) {
    *size = 0;
    if (!legal(c)) return 31;
    unsigned count = c->count, slots = c->slots;
    const core_regions *r = &c->regions;
    size_t all = 4 + 9 * count + 11 * r->count + 4 * slots;
    if (room < all) return 30;
    *size = all;
    b[0] = 1, b[1] = c->count, b[2] = c->room;
    b += 3;
    for (unsigned i = 0; i < count; i++, b += 9) {
        b[0] = 2;
        memcpy(b + 1, &c->entries[i], 4);
        memcpy(b + 5, &c->handlers[i], 4);
    }
    for (unsigned k = 0, held = r->count; k < held; k++, b += 11) {
        b[0] = 5, b[1] = r->holders[k], b[2] = r->permissions[k];
        memcpy(b + 3, &r->starts[k], 4);
        memcpy(b + 7, &r->lasts[k], 4);
    }
    for (unsigned k = 0; k < slots; k++, b += 4) {
        b[0] = 3, b[1] = c->owners[k];
        memcpy(b + 2, &c->durations[k], 2);
    }
    b[0] = 4;
    return 0;
}
