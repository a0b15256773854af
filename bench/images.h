/* The images of the benchmark, made for three sizes and for a table whose last slots name all VMs but the first; with regions or
   without. */
#ifndef BENCH_IMAGES_H
#define BENCH_IMAGES_H

#include <stddef.h>
#include <stdint.h>
#include <string.h>

#include "gerstendocht.h"

typedef struct size {
    const char *name;
    unsigned vms, slots, queue;
} size;

enum { SIZES = 3 };
static const size sizes[SIZES] = {{"2 VMs, 3 slots, queue 1", 2, 3, 1}, {"4 VMs, 16 slots, queue 8", 4, 16, 8},
                                  {"8 VMs, 64 slots, queue 16", 8, 64, 16}};

/* Few VMs in a long table: the dearest to test, where one of them comes last. */
static const size late = {"2 VMs, 64 slots, queue 16", 2, 64, 16};

/* Which slots a table has: every third is spare; none is spare; VM 0 has all but the last, which the others have. */
typedef enum table { MIXED, NAMED, LAST } table;

/* How regions lie: apart, listed upwards or shuffled; apart, in pairs of one range; those of a VM upon each other; those of a VM
   side by side, listed upwards or downwards. */
typedef enum layout { UPWARDS, SHUFFLED, SHARED, HEAPED, JOINED, JOINED_DOWN } layout;

enum { LAYOUTS = JOINED_DOWN + 1, REGION_BYTES = 0x1000 };

/* Where region k begins, before any shuffling; from HEAPED on each VM has an area of its own. */
static inline uint32_t region_start(layout l, unsigned vms, unsigned k) {
    uint32_t area = 0x100000 * (k % vms + 1), turn = k / vms;
    if (l == HEAPED) return area + 0x100 * turn;
    if (l == JOINED) return area + REGION_BYTES * turn;
    if (l == JOINED_DOWN) return area + REGION_BYTES * (CORE_REGIONS_EACH - 1 - turn);
    return 0x10000 * ((l == SHARED ? k / 2 : k) + 1);
}

static inline void shuffle(uint32_t *starts, unsigned count) {
    uint32_t seed = 2026;
    for (unsigned k = count; k > 1; k--) {
        seed = seed * 1664525u + 1013904223u;
        unsigned other = (seed >> 8) % k;
        uint32_t start = starts[other];
        starts[other] = starts[k - 1];
        starts[k - 1] = start;
    }
}

/* So many regions, of the VMs in turn; each first of `every` may be written (none: 0), the others read or executed. */
static inline core_regions make_regions(layout l, unsigned vms, unsigned count, unsigned every) {
    core_regions r = {.count = (uint8_t)count};
    for (unsigned k = 0; k < count; k++) {
        r.holders[k] = (uint8_t)(k % vms);
        r.permissions[k] = every && k % every == 0 ? CORE_MAY_WRITE : k % 2 ? CORE_MAY_READ : CORE_MAY_EXECUTE;
        r.starts[k] = region_start(l, vms, k);
    }
    if (l == SHUFFLED) shuffle(r.starts, count);
    for (unsigned k = 0; k < count; k++) r.lasts[k] = r.starts[k] + REGION_BYTES - 1;
    return r;
}

/* One region, which lets VM 0 read and write the whole window of a log (L6). */
static inline core_regions whole_window(void) {
    return (core_regions){.count = 1, .permissions = {CORE_MAY_WRITE}, .starts = {0x40000000}, .lasts = {0x40003fff}};
}

static inline size_t put_regions(uint8_t *b, const core_regions *r) {
    for (unsigned k = 0; k < r->count; k++, b += 11) {
        memcpy(b, (uint8_t[]){5, r->holders[k], r->permissions[k]}, 3);
        memcpy(b + 3, &r->starts[k], 4);
        memcpy(b + 7, &r->lasts[k], 4);
    }
    return 11 * (size_t)r->count;
}

static inline size_t make_image_with(uint8_t *b, size z, table t, const core_regions *r) {
    size_t n = 0;
    b[n++] = 1, b[n++] = (uint8_t)z.vms, b[n++] = (uint8_t)z.queue;
    for (unsigned v = 0; v < z.vms; v++, n += 9) {
        uint8_t at = (uint8_t)(0x10 * (v + 1));
        memcpy(b + n, (uint8_t[]){2, 0, at, 0, 0, 4, at, 0, 0}, 9);
    }
    n += put_regions(b + n, r);
    for (unsigned k = 0; k < z.slots; k++, n += 4) {
        unsigned left = z.slots - k, owner = k % z.vms;
        if (t == MIXED) owner = k % 3 == 2 ? 255 : (k - k / 3) % z.vms;
        if (t == LAST) owner = left < z.vms ? z.vms - left : 0;
        memcpy(b + n, (uint8_t[]){3, (uint8_t)owner, (uint8_t)(owner == 255 ? 1 : 1 + k % 4), 0}, 4);
    }
    b[n++] = 4;
    return n;
}

static const core_regions no_regions;

static inline size_t make_image(uint8_t *b, size z, table t) { return make_image_with(b, z, t, &no_regions); }

#endif
