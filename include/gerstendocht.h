/*
 * The functions of the core for a host in C, or in any language that can call C.
 *
 * They stand in the static library that `tools/staticlib` writes to target/staticlib/liblive.a, for
 * Linux on x86-64. Each is proved to meet its contract, which crates/live/src/lib.rt states. The letters
 * with numbers (T1, E2, ..) are those of docs/RULES.md.
 *
 * A state is a plain value: it holds no pointer, owns nothing and need not be freed. It may be copied by
 * assignment, kept in a file of the same machine, and there may be any number of them.
 *
 * Any numbers in a struct get an answer. A state that is not sound (W1 to W13), however it came about,
 * answers every event with refusal 1 and stays as it is. What no function can find out is this, and the
 * host has to see to it:
 *   - a pointer is not null, has the alignment of its type and points to as much memory as is said. This
 *     holds for the image too where its length is 0, and for the window where its size is 0;
 *   - `length` is not more than the bytes at `image`, and `size` not more than those at `window`;
 *   - while core_live, core_inner or core_copy runs, nobody else reads or writes the state that it was
 *     lent, nor the window. The state does not lie in the window.
 * Padding between the fields is not part of a value: compare states field by field, not by memcmp.
 */
#ifndef GERSTENDOCHT_H
#define GERSTENDOCHT_H

#include <stdbool.h>
#include <stddef.h>
#include <stdint.h>

#ifdef __cplusplus
extern "C" {
#endif

/* The limits (S1 to S3), and the number that stands for none: no VM runs, a slot is spare, nothing was delivered. */
enum { CORE_VMS = 8, CORE_ROOM = 16, CORE_SLOTS = 64, CORE_NONE = 255 };

/* The limits of memory regions: in all (H1), and of one VM (H5). */
enum { CORE_REGIONS = 64, CORE_REGIONS_EACH = 8 };

/* The permissions of a region (H3): it may be read; read and written; only executed. */
enum { CORE_MAY_READ = 1, CORE_MAY_WRITE = 2, CORE_MAY_EXECUTE = 3 };

/* The ways of an access (H8): a read is allowed by CORE_MAY_READ and CORE_MAY_WRITE, the others by one permission each. */
enum { CORE_TO_READ = 1, CORE_TO_WRITE = 2, CORE_TO_EXECUTE = 3 };

/* The limits of a Copy (S10): the extents in use, and the bytes of each. */
enum { CORE_EXTENTS = 8, CORE_LONGEST = 256 };

/* The kinds of an event (E2 to E10, E13), and which fields of core_input each reads. */
enum {
    CORE_START = 0x10,    /* none */
    CORE_TICK = 0x11,     /* word: the address at which the running VM was interrupted */
    CORE_STOP = 0x12,     /* byte: a VM */
    CORE_SHUTDOWN = 0x13, /* byte: a VM */
    CORE_RESTART = 0x14,  /* byte: a VM */
    CORE_EXTRA = 0x15,    /* byte: a VM */
    CORE_CALL = 0x16,     /* byte: the service, word: the argument, next: the next address */
    CORE_WRITE = 0x17,    /* byte: the offset, word: the value */
    CORE_FAULT = 0x18,    /* byte: the code, word: the data */
    CORE_COPY = 0x1a      /* goes by core_copy, with core_pieces: a core_input of this kind is refused with 10 */
};

/* The standings of a VM (T3); CORE_UNBORN is that of a VM that was never started. */
enum { CORE_UNBORN = 0, CORE_READY = 1, CORE_STOPPED = 2, CORE_SHUT = 3, CORE_ERROR = 4 };

/* The codes of notice 3 (A5): of a Call, of a Fault, of a Copy. A Copy may have CORE_CODE_PERMISSION too. */
enum {
    CORE_CODE_SERVICE = 1,     /* there is no such service. data: the service */
    CORE_CODE_INTERRUPT = 2,   /* a pseudo-interrupt over 31. data: the argument */
    CORE_CODE_PERMISSION = 3,  /* of a Fault, data: the Fault's; of a Copy, data: the extent's source, or its destination */
    CORE_CODE_ALIGNMENT = 4,   /* data: the Fault's */
    CORE_CODE_INSTRUCTION = 5, /* data: the Fault's */
    CORE_CODE_COUNT = 6,       /* a count over CORE_EXTENTS. data: the count */
    CORE_CODE_LENGTH = 7       /* an extent longer than CORE_LONGEST. data: its length */
};

/* The memory regions, in the order of their records; the places past the count hold zero (H1). */
typedef struct core_regions {
    uint8_t count;           /* how many regions */
    uint8_t holders[64];     /* the VM of each region */
    uint8_t permissions[64]; /* what it may do there */
    uint32_t starts[64];     /* the first address of each region */
    uint32_t lasts[64];      /* its last address, which is in it */
} core_regions;

/* What an image says. The places past the counts hold zero (S7). */
typedef struct core_config {
    uint8_t count;          /* how many VMs */
    uint8_t room;           /* the queue's size */
    uint8_t slots;          /* how many slots */
    uint32_t entries[8];    /* each VM's entry address */
    uint32_t handlers[8];   /* each VM's pseudo-interrupt handler */
    uint8_t owners[64];     /* the VM that each slot names, or CORE_NONE for spare */
    uint16_t durations[64]; /* the ticks that each slot lasts */
    core_regions regions;
} core_config;

/* Where the core stands in the table. The two flags are 0 or 1. */
typedef struct core_clock {
    uint8_t started;
    uint8_t ticked;
    uint8_t slot;
    uint16_t left; /* the ticks left in the slot */
} core_clock;

/*
 * The queue for extra time: the first `len` places, the oldest entry first; the others hold zero. counts[v] is how many of the
 * entries are VM v's, in every sound state: a console need not walk the queue. The events keep the counts (T10); a host reads
 * them, and a state in which one of the eight is wrong is not sound (W13).
 */
typedef struct core_queue {
    uint8_t items[16];
    uint8_t counts[8];
    uint8_t len;
} core_queue;

/* The status block of a VM: the fields F1 to F10, at the offsets 0, 4, .. 36. */
typedef struct core_status {
    uint32_t since;    /* ticksSinceStart */
    uint32_t left;     /* ticksLeftInTimeslice */
    uint32_t enabled;  /* psIntEnabled */
    uint32_t pending;  /* psIntPending */
    uint32_t resume;   /* psIntResumeAddress */
    uint32_t reason;   /* psIntReason */
    uint32_t previous; /* psIntPreviousEnabled */
    uint32_t restore;  /* psIntRestoreRegister */
    uint32_t ontick;   /* psIntGenerateOnTick */
    uint32_t running;  /* ticksWhileRunning */
} core_status;

/* A VM record (T2). */
typedef struct core_vm {
    uint8_t standing;
    uint32_t address; /* where the VM goes on when it next runs */
    core_status status;
    uint32_t age; /* the ticks since its last start (T4) */
    uint32_t ran; /* those of them in which it ran (T4) */
} core_vm;

/* The whole state of a core (T1). */
typedef struct core_state {
    core_config config;
    core_clock clock;
    uint8_t running; /* the VM that runs, or CORE_NONE */
    core_queue queue;
    core_vm vms[8];
} core_state;

/* An event. A field that the kind does not read may hold anything. */
typedef struct core_input {
    uint8_t kind;
    uint8_t byte;
    uint32_t word;
    uint32_t next;
} core_input;

/* One piece of a Copy (E13): so many bytes, from an address to an address. One of length 0 may have any addresses. */
typedef struct core_extent {
    uint32_t source;
    uint32_t destination;
    uint32_t length;
} core_extent;

/* What a Copy asks for (E13). Extents past the count are not looked at. */
typedef struct core_pieces {
    uint8_t count; /* how many of the extents are in use */
    uint32_t next; /* where the VM goes on */
    core_extent extents[8];
} core_pieces;

/* A notice (A4, A5): kind 0 is none. */
typedef struct core_notice {
    uint8_t kind;
    uint8_t vm;
    uint8_t code;
    uint32_t data;
} core_notice;

/*
 * An answer (A1). `refusal` is 0 where the event was done, a number of R1, or 10 where the kind is no
 * event's; with 10 the state stays, and the answer shows who runs, as any refusal does (R2, R3).
 */
typedef struct core_answer {
    uint8_t refusal;
    uint8_t running;   /* the VM that now runs, or CORE_NONE */
    uint32_t address;  /* its run address, or 0 */
    uint8_t delivered; /* the pseudo-interrupt that this event delivered, or CORE_NONE */
    core_notice notice;
    uint8_t result;  /* 1: service 4 found the queue full (A6) */
    uint8_t removed; /* how many entries of its VM the event took out of the queue (A8) */
} core_answer;

/* The state after an event, with the answer. */
typedef struct core_stepped {
    core_state core;
    core_answer answer;
} core_stepped;

/* A fault of I8 and the offset of the faulty record, or fault 0 and offset 0; and a state. */
typedef struct core_begun {
    uint8_t fault;
    size_t offset;
    core_state core;
} core_begun;

/*
 * Reads an image (I1 to I15). With fault 0 the state is the fresh core of its configuration (T6). Beside a
 * fault it is one that is not sound: it refuses every event with 1.
 */
core_begun core_fresh(const uint8_t *image, size_t length);

/* An event on a state by value: the state after it and the answer. The state passed is not changed. */
core_stepped core_step(core_state core, core_input event);

/* The same on a state that is lent: the state after the event stands where the one before it stood. */
core_answer core_live(core_state *core, core_input event);

/*
 * The same with no test whether the state is sound: for a host that guards its state. Where the state came
 * from core_fresh with fault 0, and nothing but core_live, core_step, core_inner and core_copy wrote it since, core_inner
 * leaves and answers what core_live does, for less. On any other state use core_live: there core_inner still
 * ends and writes nothing but the state and the answer, but what it answers has no meaning.
 */
core_answer core_inner(core_state *core, core_input event);

/*
 * A Copy of the running VM (E13, E14, D31 to D36), on a state that is lent, with the window that is lent for it: `size` bytes
 * at `window`, which are the VM's memory from the address `base` on. It is all or nothing. First the count is checked, then
 * every extent in use that is not of length 0: it is not longer than CORE_LONGEST, the VM may read its source and write its
 * destination (H8 to H10), and both lie in the window. Where something fails, the VM is put in error, with notice 3 and the
 * code and data of the first failure, and no byte of the window changes; nor does one where the Copy is refused. Otherwise the
 * extents are copied in their order, each as a whole (it may overlap itself, and take what an earlier one wrote), no other byte
 * changes, and the VM goes on at `next`.
 *
 * The addresses are those that the VM uses, and the window is where the host has the memory behind them. What the window
 * holds does not matter to the state and the answer; base and size do (D37). The state is tested as by core_live.
 */
core_answer core_copy(core_state *core, core_pieces pieces, uint8_t *window, size_t size, uint32_t base);

/*
 * The access query (H8 to H11): whether VM `vm` may access `length` bytes from `address` on, in the way asked. Any
 * numbers get an answer: a configuration that is not legal, a VM that it does not have and a way that there is not
 * are no. What is legal is tested at each call.
 */
bool core_allows(core_config config, uint8_t vm, uint32_t address, uint32_t length, uint8_t way);

#ifdef __cplusplus
}
#endif

#endif
