/* The core in C, in place: whether a state is sound, what is refused, and what each event does, with the bytes of a Copy. */
#include "core.h"

#include <string.h>

/* Whether n bytes, at most those of all starts of regions, are zero. */
static bool zeros(const void *from, size_t n) {
    static const uint8_t none[4 * CORE_REGIONS];
    return memcmp(from, none, n) == 0;
}

/* S4 to S6, and the slots of S7. The first loop has no exit and no bits, so that the compiler does several slots at once. */
static bool legal_slots(const core_config *c) {
    unsigned slots = c->slots;
    uint16_t count = c->count, bad = 0;
    for (unsigned k = 0; k < slots; k++) {
        uint16_t owner = c->owners[k], ticks = c->durations[k];
        bad |= (uint16_t)((owner == CORE_NONE ? ticks != 1 : owner >= count) | ((uint16_t)(ticks - 1) > 999));
    }
    if (bad) return false;
    uint32_t named = 0;
    for (unsigned k = 0; k < slots; k++) named |= 1u << c->owners[k] % 32;
    return (named & 255) == (1u << count) - 1 && zeros(c->owners + slots, CORE_SLOTS - slots) &&
           zeros(c->durations + slots, 2 * (CORE_SLOTS - slots));
}

bool clashes(const core_regions *r, unsigned k) {
    uint8_t holder = r->holders[k];
    bool written = r->permissions[k] == CORE_MAY_WRITE;
    uint32_t start = r->starts[k], last = r->lasts[k];
    for (unsigned i = 0; i < k; i++) {
        if (r->holders[i] == holder) continue;
        if (!written && r->permissions[i] != CORE_MAY_WRITE) continue;
        if (r->lasts[i] < start || last < r->starts[i]) continue;
        if (r->starts[i] == start && r->lasts[i] == last) continue;
        return true;
    }
    return false;
}

/* H1 to H6. */
static bool legal_regions(const core_config *c) {
    const core_regions *r = &c->regions;
    unsigned count = r->count, held[CORE_VMS] = {0};
    if (count > CORE_REGIONS) return false;
    for (unsigned k = 0; k < count; k++) {
        if (r->holders[k] >= c->count || ++held[r->holders[k]] > CORE_REGIONS_EACH) return false;
        if (r->permissions[k] < CORE_MAY_READ || r->permissions[k] > CORE_MAY_EXECUTE) return false;
        if (r->starts[k] > r->lasts[k] || clashes(r, k)) return false;
    }
    unsigned rest = CORE_REGIONS - count;
    return zeros(r->holders + count, rest) && zeros(r->permissions + count, rest) && zeros(r->starts + count, 4 * rest) &&
           zeros(r->lasts + count, 4 * rest);
}

bool legal(const core_config *c) {
    if (c->count < 1 || c->count > CORE_VMS || c->room > CORE_ROOM || c->slots < 1 || c->slots > CORE_SLOTS) return false;
    for (unsigned i = c->count; i < CORE_VMS; i++)
        if (c->entries[i] | c->handlers[i]) return false;
    return legal_slots(c) && legal_regions(c);
}

/* H8. */
static bool permits(uint8_t permission, uint8_t way) {
    return permission == way || (permission == CORE_MAY_WRITE && way == CORE_TO_READ);
}

bool granted(const core_regions *r, uint8_t vm, uint32_t address, uint32_t length, uint8_t way) {
    if (length == 0) return true;
    uint32_t last = address + (length - 1), from;
    if (last < address) return false;
    do {
        from = address;
        for (unsigned k = 0, count = r->count; k < count; k++) {
            if (r->holders[k] != vm || !permits(r->permissions[k], way)) continue;
            if (address < r->starts[k] || r->lasts[k] < address) continue;
            if (last <= r->lasts[k]) return true;
            address = r->lasts[k] + 1;
        }
    } while (address != from);
    return false;
}

bool allows(const core_config *c, uint8_t vm, uint32_t address, uint32_t length, uint8_t way) {
    if (vm >= c->count || way < CORE_TO_READ || way > CORE_TO_EXECUTE || !legal(c)) return false;
    return granted(&c->regions, vm, address, length, way);
}

/* A VM record as in a fresh state. */
static bool unborn(const core_vm *v) {
    const core_status *s = &v->status;
    return (v->standing | v->address | s->since | s->left | s->enabled | s->pending | s->resume | s->reason | s->previous |
            s->restore | s->ontick | s->running | v->age | v->ran) == 0;
}

static bool ready(const core_state *c, uint8_t vm) { return vm < CORE_VMS && c->vms[vm].standing == CORE_READY; }

/* W2, and W12 of the VM records; `anyone`: whether some VM is ready. */
static bool sound_vms(const core_state *c, bool *anyone) {
    *anyone = false;
    for (unsigned i = 0; i < CORE_VMS; i++) {
        if (c->vms[i].standing > CORE_ERROR) return false;
        *anyone |= c->vms[i].standing == CORE_READY;
        if (i >= c->config.count && !unborn(&c->vms[i])) return false;
    }
    return true;
}

/* W3 to W5, W13. */
static bool sound_queue(const core_state *c) {
    const core_queue *q = &c->queue;
    if (q->len > c->config.room) return false;
    for (unsigned k = 0; k < q->len; k++)
        if (!ready(c, q->items[k])) return false;
    uint8_t counts[CORE_VMS] = {0};
    for (unsigned k = 0; k < q->len; k++) counts[q->items[k]]++;
    return zeros(q->items + q->len, CORE_ROOM - q->len) && memcmp(counts, q->counts, CORE_VMS) == 0;
}

/* W6 to W11, and W12 of the flags. */
static bool sound_clock(const core_state *c, bool anyone) {
    const core_clock *k = &c->clock;
    bool runs = c->running != CORE_NONE;
    if (k->started > 1 || k->ticked > 1) return false;
    if (!k->started && (anyone || c->queue.len || runs || k->ticked)) return false;
    if (!k->ticked) return !runs;
    if (k->slot >= c->config.slots || k->left < 1 || k->left > c->config.durations[k->slot]) return false;
    if (!runs) return true;
    uint8_t owner = c->config.owners[k->slot];
    return ready(c, c->running) && (owner == c->running || owner == CORE_NONE);
}

bool sound(const core_state *c) {
    bool anyone;
    return legal(&c->config) && sound_vms(c, &anyone) && sound_queue(c) && sound_clock(c, anyone);
}

/* What is answered where nothing else is said: who runs, and from where (A2, A7). */
static core_answer answer(const core_state *c, uint8_t refusal) {
    core_answer a = {.refusal = refusal, .running = c->running, .delivered = CORE_NONE};
    if (c->running != CORE_NONE) a.address = c->vms[c->running].address;
    return a;
}

/* D11, D12: the number delivered, or none. */
static uint8_t deliver(core_vm *v, uint32_t handler) {
    core_status *s = &v->status;
    uint32_t due = s->pending & s->enabled;
    if (due == 0) return CORE_NONE;
    uint32_t n = 31 - (uint32_t)__builtin_clz(due);
    s->reason = n;
    s->previous = s->enabled;
    s->enabled = 0;
    s->pending &= ~(1u << n);
    s->resume = v->address;
    v->address = handler;
    return (uint8_t)n;
}

/* D1. */
static void start_vm(core_state *c, unsigned vm) {
    c->vms[vm] = (core_vm){.standing = CORE_READY, .address = c->config.entries[vm]};
}

/* D20: false where the queue is full. */
static bool join(core_state *c, uint8_t vm) {
    core_queue *q = &c->queue;
    if (q->len >= c->config.room) return false;
    q->items[q->len++] = vm;
    q->counts[vm]++;
    return true;
}

/* D14: all entries of a VM leave, the others keep their order; how many they were. */
static uint8_t leave(core_queue *q, uint8_t vm) {
    unsigned kept = 0, len = q->len;
    for (unsigned k = 0; k < len; k++) {
        uint8_t entry = q->items[k];
        q->items[kept] = entry;
        kept += entry != vm;
    }
    for (unsigned k = kept; k < len; k++) q->items[k] = 0;
    q->len = (uint8_t)kept;
    q->counts[vm] = 0;
    return (uint8_t)(len - kept);
}

/* D14 to D16, D23, D28: a VM ends. */
static core_answer end_vm(core_state *c, uint8_t vm, uint8_t standing, core_notice notice) {
    uint8_t removed = leave(&c->queue, vm);
    c->vms[vm].standing = standing;
    if (c->running == vm) c->running = CORE_NONE;
    core_answer a = answer(c, 0);
    a.notice = notice;
    a.removed = removed;
    return a;
}

static core_answer in_error(core_state *c, uint8_t code, uint32_t data) {
    return end_vm(c, c->running, CORE_ERROR, (core_notice){.kind = 3, .vm = c->running, .code = code, .data = data});
}

/* D5. */
static void move_clock(core_state *c) {
    core_clock *k = &c->clock;
    if (!k->ticked) {
        k->ticked = 1;
        k->slot = 0;
    } else if (k->left > 1) {
        k->left--;
        return;
    } else {
        k->slot = k->slot + 1 < c->config.slots ? k->slot + 1 : 0;
    }
    k->left = c->config.durations[k->slot];
}

/* D6, D7: who runs at this tick. */
static uint8_t runner(core_state *c) {
    uint8_t owner = c->config.owners[c->clock.slot];
    if (owner != CORE_NONE) return c->vms[owner].standing == CORE_READY ? owner : CORE_NONE;
    core_queue *q = &c->queue;
    if (q->len == 0) return CORE_NONE;
    uint8_t vm = q->items[0];
    memmove(q->items, q->items + 1, CORE_ROOM - 1);
    q->items[CORE_ROOM - 1] = 0;
    q->len--;
    q->counts[vm]--;
    return vm;
}

/* D3 to D9. */
static core_answer tick(core_state *c, uint32_t at) {
    if (c->running != CORE_NONE) c->vms[c->running].address = at;
    for (unsigned i = 0, count = c->config.count; i < count; i++) c->vms[i].age++;
    move_clock(c);
    uint8_t vm = runner(c);
    c->running = vm;
    if (vm == CORE_NONE) return answer(c, 0);
    core_vm *v = &c->vms[vm];
    v->ran++;
    v->status.since = v->age;
    v->status.left = c->clock.left;
    v->status.running = v->ran;
    v->status.pending |= v->status.ontick;
    uint8_t delivered = deliver(v, c->config.handlers[vm]);
    core_answer a = answer(c, 0);
    a.delivered = delivered;
    return a;
}

/* D24 to D30. */
static core_answer call(core_state *c, uint8_t service, uint32_t argument, uint32_t next) {
    core_vm *v = &c->vms[c->running];
    uint32_t handler = c->config.handlers[c->running];
    core_answer a;
    v->address = next;
    switch (service) {
    case 1:
        v->status.enabled = v->status.previous;
        v->address = v->status.resume;
        break;
    case 2:
        if (argument > 31) return in_error(c, 2, argument);
        v->status.pending |= 1u << argument;
        break;
    case 3:
        return end_vm(c, c->running, CORE_SHUT, (core_notice){.kind = 2, .vm = c->running});
    case 4:
        a = answer(c, 0);
        a.result = !join(c, c->running);
        return a;
    default:
        if (service != 0) return in_error(c, 1, service);
    }
    uint8_t delivered = deliver(v, handler);
    a = answer(c, 0);
    a.delivered = delivered;
    return a;
}

static core_answer start(core_state *c) {
    if (c->clock.started) return answer(c, 7);
    for (unsigned i = 0; i < c->config.count; i++) start_vm(c, i);
    c->clock.started = 1;
    return answer(c, 0);
}

/* Stop, Shutdown, Restart and Extra: the rows 3, 4 and 6 of R1, then what is done. */
static core_answer master(core_state *c, uint8_t kind, uint8_t vm) {
    if (vm >= c->config.count) return answer(c, 3);
    core_vm *v = &c->vms[vm];
    if (kind == CORE_RESTART) {
        uint8_t removed = leave(&c->queue, vm);
        start_vm(c, vm);
        core_answer a = answer(c, 0);
        a.removed = removed;
        return a;
    }
    if (v->standing != CORE_READY) return answer(c, 4);
    if (kind == CORE_STOP) return end_vm(c, vm, CORE_STOPPED, (core_notice){.kind = 1, .vm = vm});
    if (kind == CORE_EXTRA) return answer(c, join(c, vm) ? 0 : 6);
    v->status.pending |= 1u << 11;
    return answer(c, 0);
}

static core_answer write_field(core_state *c, uint8_t offset, uint32_t value) {
    if (offset > 36 || offset % 4) return answer(c, 8);
    memcpy((uint8_t *)&c->vms[c->running].status + offset, &value, sizeof value);
    return answer(c, 0);
}

core_answer trusting(core_state *c, core_input e) {
    if (e.kind < CORE_START || e.kind > CORE_FAULT) return answer(c, 10);
    if (e.kind == CORE_START) return start(c);
    if (!c->clock.started) return answer(c, 2);
    if (e.kind == CORE_TICK) return tick(c, e.word);
    if (e.kind <= CORE_EXTRA) return master(c, e.kind, e.byte);
    if (c->running == CORE_NONE) return answer(c, 5);
    if (e.kind == CORE_CALL) return call(c, e.byte, e.word, e.next);
    if (e.kind == CORE_WRITE) return write_field(c, e.byte, e.word);
    if (e.byte < 3 || e.byte > 5) return answer(c, 9);
    return in_error(c, e.byte, e.word);
}

core_answer checked(core_state *c, core_input e) {
    if (!sound(c)) return (core_answer){.refusal = 1, .running = CORE_NONE, .delivered = CORE_NONE};
    return trusting(c, e);
}

/* D32, with no sum that wraps. */
static bool inside(uint32_t address, uint32_t n, size_t size, uint32_t base) {
    uint32_t from = address - base;
    return address >= base && from <= size && n <= size - from;
}

/* D33, D34: the code of the first failure with its data, or 0. */
static uint8_t failure(const core_regions *r, uint8_t vm, const core_pieces *p, size_t size, uint32_t base, uint32_t *data) {
    unsigned count = p->count;
    *data = count;
    if (count > CORE_EXTENTS) return 6;
    for (const core_extent *x = p->extents, *end = x + count; x < end; x++) {
        uint32_t n = x->length;
        if (n == 0) continue;
        *data = n;
        if (n > CORE_LONGEST) return 7;
        *data = x->source;
        if (!inside(x->source, n, size, base) || !granted(r, vm, x->source, n, CORE_TO_READ)) return 3;
        *data = x->destination;
        if (!inside(x->destination, n, size, base) || !granted(r, vm, x->destination, n, CORE_TO_WRITE)) return 3;
    }
    return 0;
}

/* D36, for extents that were checked; one of length 0 may have any addresses. */
static void move(const core_pieces *p, uint8_t *memory, uint32_t base) {
    for (const core_extent *x = p->extents, *end = x + p->count; x < end; x++)
        if (x->length) memmove(memory + (x->destination - base), memory + (x->source - base), x->length);
}

/* D31 to D37. */
core_answer trusting_copy(core_state *c, const core_pieces *p, uint8_t *memory, size_t size, uint32_t base) {
    if (!c->clock.started) return answer(c, 2);
    if (c->running == CORE_NONE) return answer(c, 5);
    uint32_t data;
    c->vms[c->running].address = p->next;
    uint8_t code = failure(&c->config.regions, c->running, p, size, base, &data);
    if (code) return in_error(c, code, data);
    if (memory) move(p, memory, base);
    return answer(c, 0);
}

core_answer checked_copy(core_state *c, const core_pieces *p, uint8_t *memory, size_t size, uint32_t base) {
    if (!sound(c)) return (core_answer){.refusal = 1, .running = CORE_NONE, .delivered = CORE_NONE};
    return trusting_copy(c, p, memory, size, base);
}
