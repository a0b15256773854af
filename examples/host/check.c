/*
 * Checks, from C, what the lines of a run do not show: that the header's structs lie in memory as the
 * library has them, what is answered to a state that is not sound and to a kind that is no event's, and
 * what a Copy leaves of the state and of the window.
 * It prints what does not hold, and then how many checks passed.
 */
#include <stdio.h>
#include <string.h>

#include "gerstendocht.h"

_Static_assert(sizeof(core_regions) == 644, "core_regions");
_Static_assert(sizeof(core_config) == 904, "core_config");
_Static_assert(sizeof(core_queue) == 25, "core_queue");
_Static_assert(sizeof(core_vm) == 56, "core_vm");
_Static_assert(sizeof(core_state) == 1384, "core_state");
_Static_assert(sizeof(core_input) == 12, "core_input");
_Static_assert(sizeof(core_extent) == 12, "core_extent");
_Static_assert(sizeof(core_pieces) == 104, "core_pieces");
_Static_assert(offsetof(core_pieces, next) == 4, "core_pieces: next");
_Static_assert(offsetof(core_pieces, extents) == 8, "core_pieces: the first extent");
_Static_assert(offsetof(core_pieces, extents[7]) == 92, "core_pieces: the eighth extent");
_Static_assert(sizeof(core_answer) == 24, "core_answer");
_Static_assert(sizeof(core_stepped) == 1408, "core_stepped");
_Static_assert(sizeof(core_begun) == 1400, "core_begun");

static unsigned passed, failed;

static void check(const char *what, int holds)
{
    if (holds) {
        passed++;
    } else {
        failed++;
        printf("does not hold: %s\n", what);
    }
}

/* X1 of the rules. */
static const uint8_t image[] = {1, 2, 1,    2, 0,    0x10, 0, 0, 4, 0x10, 0, 0, 2, 0, 0x20, 0, 0, 4,
                                0x20, 0, 0, 3, 0, 2, 0,    3, 1, 1, 0,    3, 0xff, 1, 0, 4};

/* A legal image with as much of everything as there may be: 8 VMs, a queue of 16, 64 regions, 64 slots. */
static size_t full_image(uint8_t *b)
{
    size_t n = 0;
    b[n++] = 1, b[n++] = 8, b[n++] = 16;
    for (int i = 0; i < 8; i++) {
        const uint8_t vm[] = {2, (uint8_t)i, 1, 2, 3, (uint8_t)i, 5, 6, 7};
        memcpy(b + n, vm, sizeof vm);
        n += sizeof vm;
    }
    for (int i = 0; i < 64; i++) {
        const uint8_t last = i == 63 ? 0xff : 0x0f;
        const uint8_t region[] = {5, (uint8_t)(i % 8), (uint8_t)(1 + i % 3), 0, (uint8_t)i, 0, 0x40, last, (uint8_t)i, 0, 0x40};
        memcpy(b + n, region, sizeof region);
        n += sizeof region;
    }
    for (int i = 0; i < 64; i++) {
        const uint8_t slot[] = {3, (uint8_t)(i % 8), (uint8_t)(100 + i), 1};
        memcpy(b + n, slot, sizeof slot);
        n += sizeof slot;
    }
    b[n++] = 4;
    return n;
}

static int same_answer(core_answer a, core_answer b)
{
    return a.refusal == b.refusal && a.running == b.running && a.address == b.address && a.delivered == b.delivered &&
        a.notice.kind == b.notice.kind && a.notice.vm == b.notice.vm && a.notice.code == b.notice.code &&
        a.notice.data == b.notice.data && a.result == b.result && a.removed == b.removed;
}

/* Whether the parts that an event may change are the same; the configuration is compared by its counts. */
static int same_core(const core_state *a, const core_state *b)
{
    int same = a->running == b->running && a->clock.started == b->clock.started && a->clock.ticked == b->clock.ticked &&
        a->clock.slot == b->clock.slot && a->clock.left == b->clock.left && a->queue.len == b->queue.len &&
        memcmp(a->queue.items, b->queue.items, sizeof a->queue.items) == 0 &&
        memcmp(a->queue.counts, b->queue.counts, sizeof a->queue.counts) == 0 && a->config.count == b->config.count &&
        a->config.room == b->config.room && a->config.slots == b->config.slots;
    for (int i = 0; i < 8; i++)
        same &= a->vms[i].standing == b->vms[i].standing && a->vms[i].address == b->vms[i].address &&
            memcmp(&a->vms[i].status, &b->vms[i].status, sizeof a->vms[i].status) == 0 &&
            a->vms[i].age == b->vms[i].age && a->vms[i].ran == b->vms[i].ran;
    return same;
}

/* Sends an event by core_live and, on copies, by core_step and core_inner. `guarded`: only these functions wrote the core. */
static core_answer send_to(core_state *core, int guarded, core_input event)
{
    core_state own = *core;
    core_stepped after = core_step(*core, event);
    core_answer a = core_live(core, event);
    check("both forms answer the same", same_answer(a, after.answer));
    check("both forms leave the same core", same_core(core, &after.core));
    if (guarded) {
        check("without a test the answer is the same", same_answer(a, core_inner(&own, event)));
        check("without a test the core is the same", same_core(core, &own));
    }
    return a;
}

static core_answer send(core_state *core, uint8_t kind, uint8_t byte, uint32_t word, uint32_t next)
{
    core_input event = {.kind = kind, .byte = byte, .word = word, .next = next};
    return send_to(core, 1, event);
}

/*
 * X2 up to event 10, with P1, a Fault and its notice (D23, A5); then a kind that is no event's, and a state that breaks W2
 * and is refused with 1 (R1 to R3). Each event in every form (T9).
 */
static void worked_run(void)
{
    core_begun begun = core_fresh(image, sizeof image);
    core_state core = begun.core;
    check("no fault", begun.fault == 0 && begun.offset == 0);
    send(&core, CORE_START, 0, 0, 0);
    send(&core, CORE_TICK, 0, 0, 0);
    send(&core, CORE_WRITE, 8, 0x88, 0);
    send(&core, CORE_WRITE, 32, 0x80, 0);
    send(&core, CORE_TICK, 0, 0x1010, 0);
    send(&core, CORE_CALL, 1, 0, 0x1040);
    send(&core, CORE_CALL, 4, 0, 0x1014);
    check("the queue has VM 0", core.queue.len == 1 && core.queue.items[0] == 0 && core.queue.counts[0] == 1);
    send(&core, CORE_CALL, 4, 0, 0x1018);
    send(&core, CORE_TICK, 0, 0x1020, 0);
    send(&core, CORE_TICK, 0, 0x2008, 0);
    check("the queue is empty", core.queue.len == 0 && core.queue.counts[0] == 0);
    core_status s = core.vms[0].status;
    check("P1", s.since == 4 && s.left == 1 && s.enabled == 0 && s.pending == 0 && s.resume == 0x1020 &&
        s.reason == 7 && s.previous == 0x88 && s.restore == 0 && s.ontick == 0x80 && s.running == 3);
    check("the clock", core.clock.started == 1 && core.clock.ticked == 1 && core.clock.slot == 2 && core.clock.left == 1);
    core_answer a = send(&core, CORE_FAULT, 4, 0xabcdef01, 0);
    check("the notice of a Fault", a.notice.kind == 3 && a.notice.vm == 0 && a.notice.code == 4 && a.notice.data == 0xabcdef01);
    check("VM 0 is in error", core.vms[0].standing == CORE_ERROR && core.running == CORE_NONE);
    a = send(&core, 0x19, 0, 0, 0);
    check("a kind that is no event's", a.refusal == 10 && a.running == CORE_NONE && a.address == 0 && a.delivered == CORE_NONE);
    core.vms[7].ran = 1;
    a = send_to(&core, 0, (core_input){.kind = CORE_TICK});
    check("a state that is not sound", a.refusal == 1 && a.running == CORE_NONE && core.vms[7].ran == 1);
    a = send_to(&core, 0, (core_input){.kind = 0});
    check("no event on such a state", a.refusal == 1);
}

/*
 * An image of 1,036 bytes (S9), each place of it; a full queue (T5), its counts (T10, W13), the first tick (D1, D4), the number removed (A8); then the
 * image is cut, and the core beside the fault refuses (I8, T7).
 */
static void full_run(void)
{
    uint8_t b[1036];
    core_begun begun = core_fresh(b, full_image(b));
    core_state core = begun.core;
    check("1,036 bytes are read", begun.fault == 0 && core.config.count == 8 && core.config.room == 16 &&
        core.config.slots == CORE_SLOTS && core.config.regions.count == CORE_REGIONS);
    int same = 1;
    for (unsigned i = 0; i < 8; i++)
        same &= core.config.entries[i] == 0x03020100u + i && core.config.handlers[i] == 0x07060500u + i;
    for (unsigned i = 0; i < 64; i++)
        same &= core.config.owners[i] == i % 8 && core.config.durations[i] == 356 + i;
    const core_regions *r = &core.config.regions;
    for (unsigned i = 0; i < 64; i++)
        same &= r->holders[i] == i % 8 && r->permissions[i] == 1 + i % 3 && r->starts[i] == 0x40000000u + 256 * i &&
            r->lasts[i] == 0x40000000u + 256 * i + (i == 63 ? 0xff : 0x0f);
    check("each place of the configuration", same);
    send(&core, CORE_START, 0, 0, 0);
    for (uint8_t i = 0; i < 16; i++)
        send(&core, CORE_EXTRA, 7 - i % 8, 0, 0);
    check("the last place of the queue", core.queue.len == 16 && core.queue.items[0] == 7 && core.queue.items[15] == 0);
    same = 1;
    for (int i = 0; i < 8; i++)
        same &= core.queue.counts[i] == 2;
    check("each queue count", same);
    send(&core, CORE_TICK, 0, 0, 0);
    same = 1;
    for (int i = 0; i < 8; i++)
        same &= core.vms[i].standing == CORE_READY && core.vms[i].address == 0x03020100u + (unsigned)i &&
            core.vms[i].age == 1 && core.vms[i].ran == (i == 0);
    check("each VM record", same && core.running == 0 && core.vms[0].status.left == 356);
    core_answer a = send(&core, CORE_STOP, 3, 0, 0);
    check("the number removed", a.removed == 2 && core.queue.len == 14 && a.running == 0);
    check("and no longer counted", core.queue.counts[3] == 0 && core.queue.counts[2] == 2 && core.queue.counts[4] == 2);
    check("nothing removed by a refusal", send(&core, CORE_STOP, 3, 0, 0).removed == 0);
    for (int i = 0; i < 8; i++) {
        core_state wrong = core;
        wrong.queue.counts[i]++;
        core_state before = wrong;
        check("a wrong queue count", send_to(&wrong, 0, (core_input){.kind = CORE_TICK}).refusal == 1 && same_core(&wrong, &before));
    }
    begun = core_fresh(b, 1035);
    check("the fault of a cut image", begun.fault == 20 && begun.offset == 1035);
    core = begun.core;
    check("the core beside a fault", send_to(&core, 0, (core_input){.kind = CORE_START}).refusal == 1);
}

/* The access query (H8 to H11): region 62 is VM 6's, to be executed; 63 is VM 7's, to be read; 61 VM 5's, to be written. */
static void queries(void)
{
    uint8_t b[1036];
    core_config c = core_fresh(b, full_image(b)).core.config;
    check("execute only", core_allows(c, 6, 0x40003e00, 16, CORE_TO_EXECUTE) && !core_allows(c, 6, 0x40003e00, 16, CORE_TO_READ));
    check("read only", core_allows(c, 7, 0x40003f00, 256, CORE_TO_READ) && !core_allows(c, 7, 0x40003f00, 1, CORE_TO_WRITE));
    check("one byte past a region", !core_allows(c, 7, 0x40003f00, 257, CORE_TO_READ));
    check("read and write", core_allows(c, 5, 0x40003d00, 16, CORE_TO_WRITE) && core_allows(c, 5, 0x40003d0f, 1, CORE_TO_READ) &&
        !core_allows(c, 5, 0x40003d00, 16, CORE_TO_EXECUTE));
    check("the region of another VM", !core_allows(c, 4, 0x40003d00, 16, CORE_TO_WRITE));
    check("no bytes", core_allows(c, 0, 0xffffffff, 0, CORE_TO_WRITE));
    check("an unknown VM or way", !core_allows(c, 8, 0, 0, CORE_TO_READ) && !core_allows(c, 0, 0, 0, 0) && !core_allows(c, 0, 0, 0, 4));
    check("past the end of the space", !core_allows(c, 0, 0xffffffff, 2, CORE_TO_READ));
    c.regions.lasts[61] = 0x40003e00;
    check("regions that touch are not legal", !core_allows(c, 7, 0x40003f00, 256, CORE_TO_READ));
}

/* The image of examples/wheels: VM 0 may write 0x40000000 to 0x400003ff and a block that VM 1 may read, VM 1 a frame at 0x40002000. */
static const uint8_t wheels[] = {1, 2, 1,    2, 0,    0x10, 0, 0, 4, 0x10, 0, 0, 2, 0, 0x20, 0, 0, 4, 0x20, 0, 0,
                                 5, 0, 2,    0, 0,    0,    0x40, 0xff, 0x03, 0, 0x40,
                                 5, 0, 2,    0, 0x10, 0,    0x40, 0x3f, 0x10, 0, 0x40,
                                 5, 1, 1,    0, 0x10, 0,    0x40, 0x3f, 0x10, 0, 0x40,
                                 5, 1, 2,    0, 0x20, 0,    0x40, 0xff, 0x20, 0, 0x40,
                                 3, 0, 2, 0, 3, 1, 1, 0, 3, 0xff, 1, 0, 4};

enum { BASE = 0x40000000, SIZE = 16384, BLOCK = 0x40001000, FRAME = 0x40002000, EDGE = 64 };

/* The window, with an edge on each side that no Copy may touch; and all that it is to hold. */
static uint8_t memory[SIZE + 2 * EDGE], wanted[SIZE + 2 * EDGE];

static uint8_t *held(uint8_t *bytes, uint32_t address)
{
    return bytes + EDGE + (address - BASE);
}

/* Bytes that differ from their neighbours, in both. */
static void fill(void)
{
    for (size_t i = 0; i < sizeof memory; i++)
        memory[i] = wanted[i] = (uint8_t)(i * 7 + i / 256);
}

/* One extent is to be copied (D36), as its bytes stand. */
static void copied(core_extent x)
{
    memmove(held(wanted, x.destination), held(wanted, x.source), x.length);
}

/* The record of the VM that runs. Where none does, a check has failed: then any record. */
static core_vm *runner(core_state *core)
{
    return &core->vms[core->running % CORE_VMS];
}

/* A Copy that is done (D31, D36): the VM goes on at its next address, and nothing else of the state changes. */
static core_answer goes_on(core_state *core, uint32_t next)
{
    runner(core)->address = next;
    return (core_answer){.running = core->running, .address = next, .delivered = CORE_NONE};
}

/* A Copy that ends its VM (D31, D33, D34): at its next address as a Fault, with a code of its own (A5). */
static core_answer fails(core_state *core, uint32_t next, uint8_t code, uint32_t data)
{
    runner(core)->address = next;
    core_answer a = core_live(core, (core_input){.kind = CORE_FAULT, .byte = CORE_CODE_PERMISSION, .word = data});
    a.notice.code = code;
    return a;
}

/* A Copy that is refused (R2, R3): the state stays. */
static core_answer refused(const core_state *core, uint8_t number)
{
    uint8_t vm = number == 1 ? CORE_NONE : core->running;
    return (core_answer){.refusal = number, .running = vm, .address = vm == CORE_NONE ? 0 : core->vms[vm].address, .delivered = CORE_NONE};
}

/* Whether a Copy, with the window of `size` bytes from `base` on, answers and leaves what it has to; all bytes are compared. */
static core_answer copy_in(const char *what, uint32_t base, size_t size, core_state *core, core_pieces p, core_state after, core_answer answer)
{
    core_answer a = core_copy(core, p, held(memory, base), size, base);
    check(what, same_answer(a, answer));
    check(what, same_core(core, &after));
    check(what, memcmp(memory, wanted, sizeof memory) == 0);
    return a;
}

/* A Copy on a core of its own has to fail with a code and data (D33 to D35), and no byte moves. */
static void copy_fails(const char *what, uint32_t base, size_t size, core_state core, core_pieces p, uint8_t code, uint32_t data)
{
    uint8_t vm = core.running;
    core_vm *record = runner(&core);
    core_state after = core;
    core_answer answer = fails(&after, p.next, code, data);
    core_notice n = copy_in(what, base, size, &core, p, after, answer).notice;
    check(what, n.kind == 3 && n.vm == vm && n.code == code && n.data == data && core.running == CORE_NONE &&
        record->standing == CORE_ERROR && record->address == p.next);
}

/* A Copy has to be done: so many of its extents are copied, in their order. */
static void copy_goes(const char *what, core_state *core, core_pieces p)
{
    core_state after = *core;
    core_answer answer = goes_on(&after, p.next);
    for (int i = 0; i < p.count; i++)
        copied(p.extents[i]);
    copy_in(what, BASE, SIZE, core, p, after, answer);
}

/* A Copy has to be refused with a number, and no byte moves (D35). */
static void copy_refused(const char *what, core_state core, core_pieces p, uint8_t number)
{
    core_state before = core;
    copy_in(what, BASE, SIZE, &core, p, before, refused(&before, number));
}

/* Copies (E13, E14, D31 to D37): refused, done, and ending their VM. */
static void copies(void)
{
    const core_pieces four = {4, 0x1010, {{BASE, BLOCK, 16}, {BASE + 0x100, BLOCK + 16, 16}, {BASE + 0x200, BLOCK + 32, 16}, {BASE + 0x300, BLOCK + 48, 16}}};
    core_begun begun = core_fresh(wheels, sizeof wheels);
    core_state core = begun.core;
    check("the wheels are read", begun.fault == 0 && core.config.regions.count == 4);
    fill();

    copy_refused("a Copy before Start", core, four, 2);
    send(&core, CORE_START, 0, 0, 0);
    copy_refused("a Copy while no VM runs", core, four, 5);
    send(&core, CORE_TICK, 0, 0, 0);
    core_state broken = core;
    broken.vms[7].ran = 1;
    copy_refused("a Copy on a state that is not sound", broken, four, 1);
    core_answer a = send(&core, CORE_COPY, 4, 0x1010, 0x1010);
    check("a Copy without its extents is no event", same_answer(a, refused(&core, 10)));

    copy_goes("four wheels", &core, four);
    copy_goes("an extent over itself, then what it wrote; one past the count", &core,
        (core_pieces){2, 0x1014, {{BASE, BASE + 8, 16}, {BASE + 8, BLOCK, 16}, {0, 0, 300}}});
    copy_goes("an extent over itself, downwards", &core, (core_pieces){1, 0x1018, {{BASE + 0x181, BASE + 0x180, 256}}});
    copy_goes("eight extents, the longest and the shortest", &core,
        (core_pieces){8, 0xfffffffe, {{BASE, BASE + 0x100, 256}, {BASE + 0x100, BASE + 0x200, 256}, {BASE + 0x2ff, BASE, 1},
        {BASE + 0x3ff, BLOCK + 0x3f, 1}, {BLOCK, BLOCK + 1, 63}, {BLOCK + 1, BLOCK, 63}, {BASE + 0x80, BASE, 256}, {BASE, BASE, 256}}});
    core_state after = core;
    a = goes_on(&after, 0x1020);
    copy_in("extents of length 0, at any address and with no window", BASE, 0, &core, (core_pieces){2, 0x1020, {{0xffffffff, 0, 0}, {0, 0xffffffff, 0}}}, after, a);
    after = core;
    a = goes_on(&after, 0x1024);
    copy_in("no extent", BASE, 0, &core, (core_pieces){0, 0x1024, {{0, 0, 0xffffffff}}}, after, a);

    send(&core, CORE_EXTRA, 0, 0, 0);
    core_pieces p = four;
    p.count = 9;
    copy_fails("a count over 8", BASE, SIZE, core, p, CORE_CODE_COUNT, 9);
    p.count = 255;
    copy_fails("the greatest count", BASE, SIZE, core, p, CORE_CODE_COUNT, 255);
    p = four;
    p.extents[3].length = 257;
    p.extents[3].source = 0;
    copy_fails("an extent longer than 256, before its source", BASE, SIZE, core, p, CORE_CODE_LENGTH, 257);
    p = four;
    p.extents[3].source = BASE + 0x3f1;
    p.extents[3].destination = FRAME;
    copy_fails("a source that may not be read, before its destination", BASE, SIZE, core, p, CORE_CODE_PERMISSION, BASE + 0x3f1);
    p = four;
    p.extents[3].destination = BLOCK + 49;
    copy_fails("a destination one byte past the block", BASE, SIZE, core, p, CORE_CODE_PERMISSION, BLOCK + 49);
    p.extents[2].source = FRAME;
    copy_fails("the first failure counts", BASE, SIZE, core, p, CORE_CODE_PERMISSION, FRAME);
    copy_fails("a source below the window", BASE + 1, SIZE - 1, core, four, CORE_CODE_PERMISSION, BASE);
    copy_fails("a destination past the window", BASE, 0x103f, core, four, CORE_CODE_PERMISSION, BLOCK + 48);

    after = core;
    a = goes_on(&after, four.next);
    for (int i = 0; i < 4; i++)
        copied(four.extents[i]);
    copy_in("a window that ends with the block", BASE, 0x1040, &core, four, after, a);
    after = core;
    p = four;
    p.extents[3].destination += 8;
    a = fails(&after, p.next, CORE_CODE_PERMISSION, BLOCK + 56);
    copy_in("the fourth wheel astray", BASE, SIZE, &core, p, after, a);
    check("its request is removed", a.removed == 1 && core.queue.len == 0);
    copy_refused("a Copy after that", core, four, 5);

    send(&core, CORE_TICK, 0, 0, 0);
    a = send(&core, CORE_TICK, 0, 0, 0);
    check("the display runs", a.running == 1 && a.address == 0x2000);
    copy_goes("the display takes the block", &core, (core_pieces){1, 0x2010, {{BLOCK, FRAME, 64}}});
    copy_fails("the display may not write the block", BASE, SIZE, core, (core_pieces){1, 0x2014, {{FRAME, BLOCK, 1}}}, CORE_CODE_PERMISSION, BLOCK);
}

int main(void)
{
    worked_run();
    full_run();
    queries();
    copies();
    printf("%u checks passed, %u failed\n", passed, failed);
    return failed != 0;
}
