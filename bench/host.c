/* The library for hosts beside the core in C, one call at a time. For each case and size the call is made again and again on the
   same state, which is put back before each; a mark (bench/icount.c) stands before and after. A line for each such loop tells
   what it was, in the order of the marks: CASE|SIZE|FORM|BASE, where the base is a loop that does all but the call. Before
   anything is counted, both cores go through the same events, images, access queries and copies, and every answer, state and
   byte must be the same. */
#include <stdio.h>
#include <stdlib.h>
#include <unistd.h>

#include "c/core.h"
#include "images.h"

/* An event on a state that the host knows to be sound; where the library does not have it, it is left out. */
core_answer core_inner(core_state *core, core_input event) __attribute__((weak));

enum { TURNS = 100 };

typedef core_answer (*lent_form)(core_state *, core_input);

/* An access query. */
typedef struct query {
    uint8_t vm;
    uint32_t address, length;
    uint8_t way;
} query;

static void fail(const char *what) {
    printf("ours and C differ: %s\n", what);
    exit(1);
}

static bool same_answer(core_answer a, core_answer b) {
    return a.refusal == b.refusal && a.running == b.running && a.address == b.address && a.delivered == b.delivered &&
           a.notice.kind == b.notice.kind && a.notice.vm == b.notice.vm && a.notice.code == b.notice.code &&
           a.notice.data == b.notice.data && a.result == b.result && a.removed == b.removed;
}

static bool same_regions(const core_regions *a, const core_regions *b) {
    return a->count == b->count && !memcmp(a->holders, b->holders, 64) && !memcmp(a->permissions, b->permissions, 64) &&
           !memcmp(a->starts, b->starts, 256) && !memcmp(a->lasts, b->lasts, 256);
}

static bool same_config(const core_config *a, const core_config *b) {
    return a->count == b->count && a->room == b->room && a->slots == b->slots && !memcmp(a->entries, b->entries, 32) &&
           !memcmp(a->handlers, b->handlers, 32) && !memcmp(a->owners, b->owners, 64) && !memcmp(a->durations, b->durations, 128) &&
           same_regions(&a->regions, &b->regions);
}

/* Field by field: what stands between the fields is no part of a state. */
static bool same_state(const core_state *a, const core_state *b) {
    const core_clock *k = &a->clock, *l = &b->clock;
    bool same = same_config(&a->config, &b->config) && k->started == l->started && k->ticked == l->ticked && k->slot == l->slot &&
                k->left == l->left && a->running == b->running && !memcmp(a->queue.items, b->queue.items, 16) &&
                a->queue.len == b->queue.len && !memcmp(a->queue.counts, b->queue.counts, 8);
    for (int i = 0; i < CORE_VMS; i++) {
        const core_vm *v = &a->vms[i], *w = &b->vms[i];
        same = same && v->standing == w->standing && v->address == w->address && !memcmp(&v->status, &w->status, 40) &&
               v->age == w->age && v->ran == w->ran;
    }
    return same;
}

/* An event by all forms, from the same state. The forms that trust it are left out where it is not sound. */
static core_state compare(const char *what, core_state from, core_input e) {
    core_state a = from, b = from;
    core_answer x = core_live(&a, e), y = checked(&b, e);
    core_stepped s = core_step(from, e);
    if (!same_answer(x, y) || !same_answer(x, s.answer) || !same_state(&a, &b) || !same_state(&a, &s.core)) fail(what);
    if (!sound(&from)) return a;
    core_state c = from, d = from;
    if (!same_answer(x, trusting(&c, e)) || !same_state(&a, &c)) fail(what);
    if (core_inner && (!same_answer(x, core_inner(&d, e)) || !same_state(&a, &d))) fail(what);
    return a;
}

static uint32_t draw(uint32_t below) {
    static uint32_t seed = 2026;
    seed = seed * 1664525u + 1013904223u;
    return (seed >> 8) % below;
}

static core_state fresh_with(size z, table t, const core_regions *held) {
    uint8_t image[LONGEST_IMAGE];
    core_begun r = core_fresh(image, make_image_with(image, z, t, held));
    if (r.fault) fail("an image");
    return r.core;
}

static core_state fresh(size z, table t) { return fresh_with(z, t, &no_regions); }

/* A range on a grid, the wider the more are wanted, one in eight at the end of the space; or the range of an earlier region. */
static void draw_range(core_regions *r, unsigned k, unsigned wanted) {
    unsigned from = draw(4 * wanted), other = draw(2 * k + 2);
    r->starts[k] = 16 * from;
    r->lasts[k] = 16 * (from + draw(4)) + 15;
    if (draw(8) == 0) r->starts[k] = ~r->lasts[k], r->lasts[k] = r->starts[k] + 16 * draw(4) + 15;
    if (r->lasts[k] < r->starts[k]) r->lasts[k] = UINT32_MAX;
    if (other < k) r->starts[k] = r->starts[other], r->lasts[k] = r->lasts[other];
}

/* Legal regions, at most as many as wanted. */
static core_regions draw_regions(unsigned vms, unsigned wanted) {
    core_regions r = {0};
    unsigned held[CORE_VMS] = {0};
    if (draw(8) == 0) return make_regions((layout)draw(LAYOUTS), vms, wanted, draw(4));
    for (unsigned tries = 0; tries < 8 * wanted && r.count < wanted; tries++) {
        core_regions next = r;
        unsigned k = next.count++, holder = draw(vms);
        next.holders[k] = (uint8_t)holder;
        next.permissions[k] = (uint8_t)(1 + draw(3));
        draw_range(&next, k, wanted);
        if (held[holder] < CORE_REGIONS_EACH && !clashes(&next, k)) r = next, held[holder]++;
    }
    return r;
}

/* Any events, on states of which now and then one byte is another: any byte, or, where there are regions, mostly one of theirs. */
static void compare_runs(size z, const core_regions *held, int events) {
    core_state c = fresh_with(z, MIXED, held);
    for (int n = 0; n < events; n++) {
        core_input e = {.kind = (uint8_t)(0x0f + draw(12)), .byte = (uint8_t)draw(10), .word = draw(40), .next = draw(65536)};
        if (e.kind == CORE_WRITE) e.byte = (uint8_t)(4 * e.byte), e.word = draw(1u << 24);
        if (n % 2) e = (core_input){.kind = CORE_TICK, .word = draw(65536)};
        c = compare("a run", c, e);
        core_state other = c;
        size_t at = draw(sizeof other);
        if (held->count && draw(4)) at = offsetof(core_state, config.regions) + draw(sizeof *held);
        ((uint8_t *)&other)[at] = (uint8_t)draw(n % 3 ? 4 : 256);
        compare("a state with another byte", other, e);
    }
}

static void compare_held_runs(size z) {
    for (int n = 0; n < 50; n++) {
        core_regions held = draw_regions(z.vms, CORE_REGIONS_EACH * z.vms - draw(6));
        compare_runs(z, &held, 200);
    }
}

static bool met[256]; /* the faults of the images compared */

static void compare_image(const uint8_t *image, size_t m) {
    core_begun a = core_fresh(image, m), b = read_image(image, m);
    if (a.fault != b.fault || a.offset != b.offset || !same_state(&a.core, &b.core)) fail("an image");
    met[a.fault] = true;
}

static void compare_images(size z) {
    uint8_t image[340];
    for (int n = 0; n < 5000; n++) {
        size_t m = make_image(image, z, (table)(n % 3));
        if (n > 100) image[draw((uint32_t)m)] = (uint8_t)draw(n % 2 ? 6 : 256);
        if (n > 4000) m = draw((uint32_t)m + 4);
        compare_image(image, m);
    }
}

/* One to three numbers of one region are others, or its range is that of another region upside down. */
static void spoil(core_regions *r, unsigned vms) {
    unsigned k = draw(r->count);
    for (unsigned n = 1 + draw(3); n > 0; n--) {
        unsigned other = draw(r->count), what = draw(5);
        if (what == 0) r->holders[k] = (uint8_t)draw(vms + 1);
        if (what == 1) r->permissions[k] = (uint8_t)draw(5);
        if (what == 2) r->starts[k] = r->starts[other] + draw(3) - 1;
        if (what == 3) r->lasts[k] = r->lasts[other] + draw(3) - 1;
        if (what == 4) r->starts[k] = r->lasts[other], r->lasts[k] = r->starts[other];
    }
}

/* Images with regions: as they are, with other numbers, with a record twice (so that there may be 65), with another byte, cut;
   and now and then with 65 slots. */
static void compare_held_images(size z) {
    uint8_t image[LONGEST_IMAGE + 16];
    size_t first = 3 + 9 * z.vms;
    unsigned slots = z.slots;
    for (int n = 0; n < 5000; n++) {
        core_regions r = draw_regions(z.vms, 1 + draw(CORE_REGIONS_EACH * z.vms));
        if (n % 5 == 1 || n % 5 == 2) spoil(&r, z.vms);
        z.slots = n % 50 ? slots : CORE_SLOTS + 1;
        size_t m = make_image_with(image, z, MIXED, &r), again = first + 11 * draw(r.count);
        if (n % 5 == 2) memmove(image + again + 11, image + again, m - again), m += 11;
        if (n % 5 == 3) image[draw((uint32_t)m)] = (uint8_t)draw(n % 2 ? 6 : 256);
        if (n % 5 == 4) m = draw((uint32_t)m + 4);
        compare_image(image, m);
    }
}

/* That the images had each fault, and some none. */
static void all_met(void) {
    static const uint8_t faults[] = {0, 20, 21, 22, 23, 24, 25, 26, 27, 28, 32, 33, 34, 35, 36};
    for (unsigned k = 0; k < sizeof faults; k++)
        if (!met[faults[k]]) printf("no image had fault %u\n", faults[k]), exit(1);
}

/* A query from near a region's start, or near its last address, to near that of another or its own; or of any length. Mostly its
   VM and its permission are asked for. */
static query draw_query(const core_config *c) {
    const core_regions *r = &c->regions;
    unsigned k = draw(r->count + 1u) % CORE_REGIONS, to = draw(2) ? k : draw(r->count + 1u) % CORE_REGIONS;
    query q = {.vm = r->holders[k], .address = (draw(4) ? r->starts[k] : r->lasts[k]) + draw(4) - 1, .way = r->permissions[k]};
    q.length = r->lasts[to] + draw(3) - q.address;
    if (!draw(4)) q.vm = (uint8_t)draw(c->count + 1u);
    if (!draw(4)) q.way = (uint8_t)draw(5);
    if (!draw(4)) q.length = draw(4) ? draw(40) : draw(1u << 24) << 8;
    return q;
}

static bool compare_query(const core_config *c) {
    query q = draw_query(c);
    bool answer = core_allows(*c, q.vm, q.address, q.length, q.way);
    if (answer != allows(c, q.vm, q.address, q.length, q.way)) fail("an access query");
    if (q.vm >= c->count || q.way < 1 || q.way > 3 || !legal(c)) return answer;
    if (answer != granted(&c->regions, q.vm, q.address, q.length, q.way)) fail("an access query");
    return answer;
}

/* Queries of legal configurations, and of the same with another byte. */
static void compare_queries(size z) {
    unsigned yes = 0;
    for (int n = 0; n < 200; n++) {
        core_regions held = draw_regions(z.vms, draw(CORE_REGIONS_EACH * z.vms + 1));
        core_config c = fresh_with(z, MIXED, &held).config;
        for (int k = 0; k < 50; k++) yes += compare_query(&c);
        for (int k = 0; k < 20; k++) {
            core_config other = c;
            ((uint8_t *)&other)[draw(sizeof other)] = (uint8_t)draw(k % 3 ? 4 : 256);
            compare_query(&other);
        }
    }
    if (yes < 1000) fail("too few access queries are yes");
}

/* The memory of a host, and where it lies for the guests. */
typedef struct lent_memory {
    uint8_t bytes[WINDOW_SIZE];
    size_t size;
    uint32_t base;
} lent_memory;

typedef core_answer (*copy_form)(core_state *, const core_pieces *, uint8_t *, size_t, uint32_t);

/* The library's form, for what C asks for. */
static core_answer ours_copy(core_state *c, const core_pieces *p, uint8_t *memory, size_t size, uint32_t base) {
    return core_copy(c, *p, memory, size, base);
}

static bool same_bytes(const lent_memory *a, const lent_memory *b) { return !memcmp(a->bytes, b->bytes, sizeof a->bytes); }

/* A Copy by all forms, from the same state and memory. How it went: its refusal; 10 and the code of its error; 10 where it was done
   and no byte is another; 0 where bytes are. */
static unsigned compare_copy(const char *what, core_state from, const core_pieces *p, const lent_memory *m) {
    static lent_memory k, l;
    core_state a = from, b = from;
    k = l = *m;
    core_answer x = ours_copy(&a, p, k.bytes, k.size, k.base), y = checked_copy(&b, p, l.bytes, l.size, l.base);
    if (!same_answer(x, y) || !same_state(&a, &b) || !same_bytes(&k, &l)) fail(what);
    if (!sound(&from)) return x.refusal;
    l = *m;
    y = trusting_copy(&from, p, l.bytes, l.size, l.base);
    if (!same_answer(x, y) || !same_state(&a, &from) || !same_bytes(&k, &l)) fail(what);
    if (x.refusal || x.notice.kind) return x.notice.kind ? 10u + x.notice.code : x.refusal;
    return same_bytes(m, &k) ? 10 : 0;
}

/* An address in a region, mostly one of the VM's, or just before it. */
static uint32_t draw_address(const core_regions *r, uint8_t vm) {
    unsigned k = draw(r->count);
    for (int tries = 0; tries < 20 && r->holders[k] != vm; tries++) k = draw(r->count);
    return r->starts[k] + draw(16) - (draw(16) == 0);
}

static core_pieces draw_pieces(const core_regions *r, uint8_t vm) {
    core_pieces p = {.count = (uint8_t)(draw(8) ? draw(4) : draw(12)), .next = draw(65536)};
    for (unsigned k = 0; k < CORE_EXTENTS; k++) {
        p.extents[k] = (core_extent){draw_address(r, vm), draw_address(r, vm), draw(16) ? draw(20) : 250 + draw(10)};
        if (draw(100) == 0) p.extents[k].length = draw(1u << 24) << 8;
    }
    return p;
}

/* A memory that holds most of the regions of draw_range: those at the front of the space; or those at its end, and beyond it. */
static void draw_memory(lent_memory *m) {
    m->size = draw(4) ? 5120 : draw(5120);
    m->base = draw(4) ? 0 : 16 * draw(8);
    if (draw(4) == 0) m->size = 2048 + 2048 * draw(2), m->base = -2048u;
    for (unsigned n = 0; n < sizeof m->bytes; n++) m->bytes[n] = (uint8_t)draw(256);
}

/* Copies on states of some ticks, on the same not started, and on the same with another byte. */
static void compare_copies(size z, unsigned *went) {
    static lent_memory m;
    for (int n = 0; n < 200; n++) {
        core_regions held = draw_regions(z.vms, 1 + draw(CORE_REGIONS_EACH * z.vms));
        core_state c = fresh_with(z, MIXED, &held);
        if (n % 10) trusting(&c, (core_input){.kind = CORE_START});
        draw_memory(&m);
        for (int k = 0; k < 50; k++) {
            if (k % 5 == 0) trusting(&c, (core_input){.kind = CORE_TICK});
            core_pieces p = draw_pieces(&held, c.running);
            went[compare_copy("a Copy", c, &p, &m)]++;
            core_state other = c;
            ((uint8_t *)&other)[draw(sizeof other)] = (uint8_t)draw(k % 3 ? 4 : 256);
            went[compare_copy("a Copy on a state with another byte", other, &p, &m)]++;
        }
    }
}

/* That each refusal and each error of a Copy came up, and bytes that moved. */
static void all_went(const unsigned *went) {
    static const uint8_t ways[] = {0, 1, 2, 5, 13, 16, 17};
    for (unsigned k = 0; k < sizeof ways; k++)
        if (went[ways[k]] < 100) printf("too few copies went as %u\n", ways[k]), exit(1);
}

static uint32_t sum; /* of all answers, so that none is left out */

static void add(core_answer a) { sum += a.refusal + a.running + a.address + a.delivered + a.notice.data + a.removed; }

static void mark(void) { getppid(); }

static void name(const char *what, const char *z, const char *form, const char *base) {
    printf("%s|%s|%s|%s\n", what, z, form, base);
}

static void keep(const void *p) { __asm__ volatile("" : : "r"(p) : "memory"); }

__attribute__((noinline)) static void loop_empty(void) {
    mark();
    for (int n = 0; n < TURNS; n++) keep(&sum);
    mark();
}

__attribute__((noinline)) static void loop_copy(const core_state *from) {
    core_state c;
    mark();
    for (int n = 0; n < TURNS; n++) c = *from, keep(&c);
    mark();
}

__attribute__((noinline)) static void loop_lent(lent_form f, const core_state *from, core_input e) {
    core_state c;
    mark();
    for (int n = 0; n < TURNS; n++) c = *from, keep(&c), add(f(&c, e));
    mark();
}

__attribute__((noinline)) static void loop_nothing(void) {
    mark();
    mark();
}

/* One call, on a state that is not wanted any more. */
__attribute__((noinline)) static void loop_once(core_state c, core_input e) {
    mark();
    core_answer a = core_live(&c, e);
    mark();
    add(a);
}

/* The state is not put back: one event after the other. */
__attribute__((noinline)) static void loop_chain(lent_form f, const core_state *from, core_input e) {
    core_state c = *from;
    mark();
    for (int n = 0; n < TURNS; n++) add(f(&c, e));
    mark();
}

__attribute__((noinline)) static void loop_value(const core_state *from, core_input e) {
    mark();
    for (int n = 0; n < TURNS; n++) {
        core_stepped s = core_step(*from, e);
        add(s.answer);
    }
    mark();
}

__attribute__((noinline)) static void loop_value_chain(const core_state *from, core_input e) {
    core_state c = *from;
    mark();
    for (int n = 0; n < TURNS; n++) {
        core_stepped s = core_step(c, e);
        c = s.core;
        add(s.answer);
    }
    mark();
}

__attribute__((noinline)) static void loop_read(core_begun (*f)(const uint8_t *, size_t), const uint8_t *image, size_t m) {
    mark();
    for (int n = 0; n < TURNS; n++) {
        core_begun r = f(image, m);
        sum += r.fault + r.core.config.count;
        keep(&r);
    }
    mark();
}

__attribute__((noinline)) static void loop_ours(const core_config *c, query q) {
    mark();
    for (int n = 0; n < TURNS; n++) sum += core_allows(*c, q.vm, q.address, q.length, q.way);
    mark();
}

__attribute__((noinline)) static void loop_allows(const core_config *c, query q) {
    mark();
    for (int n = 0; n < TURNS; n++) sum += allows(c, q.vm, q.address, q.length, q.way);
    mark();
}

__attribute__((noinline)) static void loop_granted(const core_config *c, query q) {
    mark();
    for (int n = 0; n < TURNS; n++) sum += granted(&c->regions, q.vm, q.address, q.length, q.way);
    mark();
}

__attribute__((noinline)) static void loop_form(copy_form f, const core_state *from, const core_pieces *p, lent_memory *m) {
    core_state c;
    mark();
    for (int n = 0; n < TURNS; n++) c = *from, keep(&c), add(f(&c, p, m->bytes, m->size, m->base));
    mark();
}

__attribute__((noinline)) static void loop_core_copy(const core_state *from, const core_pieces *p, lent_memory *m) {
    core_state c;
    mark();
    for (int n = 0; n < TURNS; n++) c = *from, keep(&c), add(core_copy(&c, *p, m->bytes, m->size, m->base));
    mark();
}

/* As many calls as there are extents, and nothing else. */
__attribute__((noinline)) static void loop_memmove(const core_pieces *p, lent_memory *m) {
    uint8_t *from[CORE_EXTENTS], *to[CORE_EXTENTS];
    for (unsigned k = 0; k < CORE_EXTENTS; k++) {
        from[k] = m->bytes + (p->extents[k].source - m->base);
        to[k] = m->bytes + (p->extents[k].destination - m->base);
    }
    mark();
    for (int n = 0; n < TURNS; n++)
        for (unsigned k = 0; k < CORE_EXTENTS; k++) memmove(to[k], from[k], p->extents[k].length);
    mark();
}

/* What is done to the state of a case once its events are through. */
typedef enum spoiled { NOTHING, FILL, EARLY, LATE } spoiled;

/* A case: the events after Start that lead to its state, and the event that is counted. A kind of 0 ends a row. */
typedef struct test_case {
    const char *name;
    core_input before[8], event;
    spoiled spoiled;
    bool chain, fresh, last, late;
} test_case;

#define TICK {.kind = CORE_TICK, .word = 0x1000}
#define MASTER(what, vm) {.kind = what, .byte = vm}
#define CALL(service, argument) {.kind = CORE_CALL, .byte = service, .word = argument, .next = 0x1010}
#define WRITE(offset, value) {.kind = CORE_WRITE, .byte = offset, .word = value}
#define FAULT(code) {.kind = CORE_FAULT, .byte = code, .word = 0x2000}
#define OFFERED(bit) {TICK, TICK, WRITE(8, bit), WRITE(32, bit)}

/* In all sizes slot 0 is VM 0's for 1 tick, slot 1 is VM 1's for 2 ticks, slot 2 is spare. */
static const test_case cases[] = {
    {.name = "Tick, one after the other", .event = TICK, .chain = true},
    {.name = "Tick, the slot lasts", .before = {TICK, TICK}, .event = TICK},
    {.name = "Tick, into a named slot", .before = {TICK}, .event = TICK},
    {.name = "Tick, into a slot whose VM is stopped", .before = {TICK, MASTER(CORE_STOP, 1)}, .event = TICK},
    {.name = "Tick, into a spare slot, the queue is empty", .before = {TICK, TICK, TICK}, .event = TICK},
    {.name = "Tick, into a spare slot, the queue is full", .before = {TICK, TICK, TICK}, .spoiled = FILL, .event = TICK},
    {.name = "Tick that delivers 31", .before = OFFERED(1u << 31), .event = TICK},
    {.name = "Tick that delivers 16", .before = OFFERED(1u << 16), .event = TICK},
    {.name = "Tick that delivers 0", .before = OFFERED(1), .event = TICK},
    {.name = "Tick, VMs 1 to 7 come last in 64 slots", .before = {TICK}, .event = TICK, .last = true},
    {.name = "Tick, refused with 2", .event = TICK, .fresh = true},
    {.name = "Start", .event = {.kind = CORE_START}, .fresh = true},
    {.name = "Start, refused with 7", .before = {TICK}, .event = {.kind = CORE_START}},
    {.name = "Stop", .before = {TICK}, .event = MASTER(CORE_STOP, 0)},
    {.name = "Stop, the queue is full", .before = {TICK}, .spoiled = FILL, .event = MASTER(CORE_STOP, 1)},
    {.name = "Stop, refused with 4", .before = {TICK, MASTER(CORE_STOP, 1)}, .event = MASTER(CORE_STOP, 1)},
    {.name = "Stop of an unknown VM, refused with 3", .before = {TICK}, .event = MASTER(CORE_STOP, 8)},
    {.name = "Shutdown", .before = {TICK}, .event = MASTER(CORE_SHUTDOWN, 1)},
    {.name = "Restart", .before = {TICK}, .event = MASTER(CORE_RESTART, 1)},
    {.name = "Restart, the queue is full", .before = {TICK}, .spoiled = FILL, .event = MASTER(CORE_RESTART, 1)},
    {.name = "Extra", .before = {TICK}, .event = MASTER(CORE_EXTRA, 1)},
    {.name = "Extra, refused with 6", .before = {TICK}, .spoiled = FILL, .event = MASTER(CORE_EXTRA, 1)},
    {.name = "Call 0, nothing is due", .before = {TICK}, .event = CALL(0, 0)},
    {.name = "Call 1, nothing is due", .before = {TICK}, .event = CALL(1, 0)},
    {.name = "Call 2, not enabled", .before = {TICK}, .event = CALL(2, 7)},
    {.name = "Call 2 that delivers 31", .before = {TICK, WRITE(8, 1u << 31)}, .event = CALL(2, 31)},
    {.name = "Call 2 that delivers 0", .before = {TICK, WRITE(8, 1)}, .event = CALL(2, 0)},
    {.name = "Call 2 with 32", .before = {TICK}, .event = CALL(2, 32)},
    {.name = "Call 3", .before = {TICK}, .event = CALL(3, 0)},
    {.name = "Call 4", .before = {TICK}, .event = CALL(4, 0)},
    {.name = "Call 4, the queue is full", .before = {TICK}, .spoiled = FILL, .event = CALL(4, 0)},
    {.name = "Call 5", .before = {TICK}, .event = CALL(5, 0)},
    {.name = "Call, refused with 5", .event = CALL(0, 0)},
    {.name = "Write", .before = {TICK}, .event = WRITE(28, 1)},
    {.name = "Write, refused with 8", .before = {TICK}, .event = WRITE(3, 1)},
    {.name = "Fault", .before = {TICK}, .event = FAULT(3)},
    {.name = "Fault, refused with 9", .before = {TICK}, .event = FAULT(6)},
    {.name = "unknown kind, refused with 10", .before = {TICK}, .event = {.kind = 0x19}},
    {.name = "Tick, 2 VMs, VM 1 comes last in 64 slots", .before = {TICK}, .event = TICK, .late = true},
    {.name = "Restart, the same table, the queue is full", .before = {TICK}, .spoiled = FILL, .event = MASTER(CORE_RESTART, 1), .late = true},
    {.name = "Call 2 that delivers 0, the same", .before = {TICK, WRITE(8, 1)}, .spoiled = FILL, .event = CALL(2, 0), .late = true},
    {.name = "Tick, the VM count is not sound", .before = {TICK}, .spoiled = EARLY, .event = TICK},
    {.name = "Tick, who runs is not sound", .before = {TICK}, .spoiled = LATE, .event = TICK},
};

static core_state state_from(const test_case *t, core_state c) {
    if (!t->fresh) trusting(&c, (core_input){.kind = CORE_START});
    for (int n = 0; n < 8 && t->before[n].kind; n++) trusting(&c, t->before[n]);
    for (int n = 0; t->spoiled == FILL && n < CORE_ROOM; n++) trusting(&c, (core_input){.kind = CORE_EXTRA, .byte = n % 2});
    if (t->spoiled == EARLY) c.config.count = 0;
    if (t->spoiled == LATE) c.running = 1;
    return c;
}

static core_state state_of(const test_case *t, size z) { return state_from(t, fresh(z, t->last || t->late ? LAST : MIXED)); }

static void count_form(const test_case *t, const char *z, const char *form, lent_form f, const core_state *c) {
    name(t->name, z, form, t->chain ? "empty" : "copy");
    if (t->chain)
        loop_chain(f, c, t->event);
    else
        loop_lent(f, c, t->event);
}

static void count_case(const test_case *t, size z) {
    core_state c = state_of(t, z);
    bool trusted = sound(&c);
    compare(t->name, c, t->event);
    count_form(t, z.name, "core_live", core_live, &c);
    name(t->name, z.name, "core_step", "empty");
    if (t->chain)
        loop_value_chain(&c, t->event);
    else
        loop_value(&c, t->event);
    if (core_inner && trusted) count_form(t, z.name, "core_inner", core_inner, &c);
    count_form(t, z.name, "C checked", checked, &c);
    if (trusted) count_form(t, z.name, "C trusting", trusting, &c);
}

/* Each case in each shape of a legal configuration: how many VMs and slots, which table, the queue empty or full. */
static void count_shapes(void) {
    static const unsigned lengths[] = {1, 2, 3, 8, 15, 16, 17, 24, 32, 33, 48, 63, 64};
    static const char *const tables[] = {"every third slot spare", "no slot spare", "VM 0 in all slots but the last"};
    char shape[96];
    for (unsigned vms = 1; vms <= CORE_VMS; vms++)
        for (unsigned k = 0; k < sizeof lengths / sizeof lengths[0]; k++)
            for (int t = MIXED; t <= LAST; t++)
                for (int full = 0; full < 2; full++)
                    for (unsigned n = 0; n < sizeof cases / sizeof cases[0]; n++) {
                        size z = {"", vms, lengths[k], full ? CORE_ROOM : 0};
                        uint8_t image[LONGEST_IMAGE];
                        core_begun r = core_fresh(image, make_image(image, z, (table)t));
                        if (r.fault) continue;
                        test_case c = cases[n];
                        if (full) c.spoiled = c.spoiled ? c.spoiled : FILL;
                        core_state from = state_from(&c, r.core);
                        if (!sound(&from)) continue;
                        snprintf(shape, sizeof shape, "%u VMs, %u slots, %s, %u queued", vms, z.slots, tables[t], from.queue.len);
                        name(c.event.kind == CORE_TICK ? "shape, Tick" : "shape", shape, c.name, "nothing");
                        loop_once(from, c.event);
                    }
}

/* A layout of regions, and how many of them may be written: each first of so many. */
typedef struct held_case {
    const char *name;
    layout layout;
    unsigned every;
} held_case;

/* The name of each says to the tables that it is one of these. */
static const held_case held_cases[] = {
    {"regions: apart, listed upwards, none writable", UPWARDS, 0},
    {"regions: apart, listed upwards, a third writable", UPWARDS, 3},
    {"regions: apart, listed upwards, all writable", UPWARDS, 1},
    {"regions: apart, shuffled, none writable", SHUFFLED, 0},
    {"regions: apart, shuffled, a third writable", SHUFFLED, 3},
    {"regions: apart, shuffled, all writable", SHUFFLED, 1},
    {"regions: shared in pairs of one range, a third writable", SHARED, 3},
    {"regions: shared in pairs of one range, all writable", SHARED, 1},
    {"regions: those of a VM overlap, a third writable", HEAPED, 3},
    {"regions: those of a VM overlap, all writable", HEAPED, 1},
};

/* A Tick in a slot that lasts, with the test of the regions before it. */
static void count_tick(const char *what, size z, const core_regions *held) {
    const test_case t = {.name = what, .before = {TICK, TICK}, .event = TICK};
    core_state c = state_from(&t, fresh_with(z, MIXED, held));
    compare(what, c, t.event);
    count_form(&t, z.name, "core_live", core_live, &c);
    count_form(&t, z.name, "C checked", checked, &c);
}

static void count_regions(void) {
    static const struct { int size; unsigned count; } shapes[] = {{0, 16}, {2, 16}, {2, 64}};
    count_tick("regions: none", sizes[0], &no_regions);
    count_tick("regions: none", sizes[2], &no_regions);
    for (unsigned n = 0; n < sizeof held_cases / sizeof held_cases[0]; n++)
        for (int k = 0; k < 3; k++) {
            const held_case *h = &held_cases[n];
            size z = sizes[shapes[k].size];
            core_regions held = make_regions(h->layout, z.vms, shapes[k].count, h->every);
            count_tick(h->name, z, &held);
        }
}

/* A query of VM 0 to write, the regions that there are, all of them writable, and the answer. */
typedef struct query_case {
    const char *name;
    layout layout;
    unsigned count;
    uint32_t address, length;
    bool answer;
} query_case;

/* Of those apart VM 0 has regions 0, 8, .. 56; region k begins at 0x10000 * (k + 1). Its joined ones are all from 0x100000 on. */
static const query_case query_cases[] = {
    {"query: 1 region, and it holds the range: yes", UPWARDS, 1, 0x10000, REGION_BYTES, true},
    {"query: 64 regions, one in their middle holds the range: yes", UPWARDS, 64, 0x210000, REGION_BYTES, true},
    {"query: 64 regions, 8 adjoining ones hold it, listed upwards: yes", JOINED, 64, 0x100000, 8 * REGION_BYTES, true},
    {"query: 64 regions, 8 adjoining ones hold it, listed downwards: yes", JOINED_DOWN, 64, 0x100000, 8 * REGION_BYTES, true},
    {"query: 64 regions, none holds its first byte: no", UPWARDS, 64, 0, REGION_BYTES, false},
    {"query: 64 regions, 8 adjoining ones hold all but its last byte: no", JOINED, 64, 0x100000, 8 * REGION_BYTES + 1, false},
};

static void count_query(const query_case *t, size z) {
    core_regions held = make_regions(t->layout, z.vms, t->count, 1);
    core_config c = fresh_with(z, MIXED, &held).config;
    query q = {.address = t->address, .length = t->length, .way = CORE_TO_WRITE};
    if (core_allows(c, q.vm, q.address, q.length, q.way) != t->answer) fail(t->name);
    if (allows(&c, q.vm, q.address, q.length, q.way) != t->answer) fail(t->name);
    if (granted(&c.regions, q.vm, q.address, q.length, q.way) != t->answer) fail(t->name);
    name(t->name, z.name, "core_allows", "empty");
    loop_ours(&c, q);
    name(t->name, z.name, "C checked", "empty");
    loop_allows(&c, q);
    name(t->name, z.name, "C trusting", "empty");
    loop_granted(&c, q);
}

/* A Copy in the window of a log, which is all VM 0's; the name says to the tables what it is. */
static void count_copy(const char *what, size z, uint8_t count) {
    static lent_memory m = {.size = WINDOW_SIZE, .base = WINDOW_BASE};
    const test_case t = {.before = {TICK}};
    core_regions held = whole_window();
    core_state c = state_from(&t, fresh_with(z, MIXED, &held));
    core_pieces p = {.count = count, .next = 0x1010};
    for (unsigned k = 0; k < CORE_EXTENTS; k++) {
        uint32_t source = WINDOW_BASE + CORE_LONGEST * k;
        p.extents[k] = (core_extent){source, source + WINDOW_SIZE / 2, CORE_LONGEST};
    }
    for (unsigned n = 0; n < WINDOW_SIZE; n++) m.bytes[n] = (uint8_t)draw(256);
    if (compare_copy(what, c, &p, &m) != (count ? 0 : 10)) fail(what);
    name(what, z.name, "core_copy", "copy"), loop_core_copy(&c, &p, &m);
    name(what, z.name, "C checked", "copy"), loop_form(checked_copy, &c, &p, &m);
    name(what, z.name, "C trusting", "copy"), loop_form(trusting_copy, &c, &p, &m);
    if (count == CORE_EXTENTS) name(what, z.name, "memmove", "empty"), loop_memmove(&p, &m);
}

static void count_reading(const char *what, size z, const core_regions *held) {
    uint8_t image[LONGEST_IMAGE];
    size_t m = make_image_with(image, z, MIXED, held);
    compare_image(image, m);
    name(what, z.name, "core_fresh", "empty");
    loop_read(core_fresh, image, m);
    name(what, z.name, "C", "empty");
    loop_read(read_image, image, m);
}

static void compare_all(size z) {
    compare_runs(z, &no_regions, 20000);
    compare_held_runs(z);
    compare_images(z);
    compare_held_images(z);
    compare_queries(z);
}

int main(void) {
    unsigned went[256] = {0};
    for (int k = 0; k < SIZES; k++) compare_all(sizes[k]);
    all_met();
    for (int k = 0; k < SIZES; k++) compare_copies(sizes[k], went);
    all_went(went);
    core_state c = fresh(sizes[0], MIXED);
    printf("turns %d\n", TURNS);
    name("base", "", "empty", ""), loop_empty();
    name("base", "", "copy", ""), loop_copy(&c);
    name("base", "", "nothing", ""), loop_nothing();
    for (unsigned n = 0; n < sizeof cases / sizeof cases[0]; n++)
        if (cases[n].late)
            count_case(&cases[n], late);
        else
            for (int k = cases[n].last ? SIZES - 1 : 0; k < SIZES; k++) count_case(&cases[n], sizes[k]);
    count_regions();
    for (unsigned n = 0; n < sizeof query_cases / sizeof query_cases[0]; n++) count_query(&query_cases[n], sizes[SIZES - 1]);
    for (int k = 0; k < SIZES; k++) count_copy("copy: 8 extents of 256 bytes", sizes[k], CORE_EXTENTS);
    for (int k = 0; k < SIZES; k++) count_copy("copy: no extent", sizes[k], 0);
    for (int k = 0; k < SIZES; k++) {
        core_regions held = make_regions(UPWARDS, sizes[k].vms, CORE_REGIONS_EACH * sizes[k].vms, 3);
        count_reading("read", sizes[k], &no_regions);
        count_reading("read with regions", sizes[k], &held);
    }
    count_shapes();
    printf("sum %u\n", sum);
    return 0;
}
