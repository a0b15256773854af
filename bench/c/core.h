/* What the files of bench/c share: the core, images, logs and text in C, over the structs of the header for hosts. */
#ifndef BENCH_CORE_H
#define BENCH_CORE_H

#include <stdbool.h>
#include <stddef.h>
#include <stdint.h>

#include "gerstendocht.h"

/* How long the record of a Copy is (E13), and where the window of a log lies (L6). */
enum { COPY_BYTES = 102, WINDOW_BASE = 0x40000000, WINDOW_SIZE = 16384 };

/* core.c */
bool sound(const core_state *c);                             /* W1 to W13 */
core_answer trusting(core_state *c, core_input e);           /* an event, in place, on a state that is sound */
core_answer checked(core_state *c, core_input e);            /* the test, then the event */
/* The same for a Copy, with the window that it works on. Where its memory is null, only the state changes. */
core_answer trusting_copy(core_state *c, const core_pieces *p, uint8_t *memory, size_t size, uint32_t base);
core_answer checked_copy(core_state *c, const core_pieces *p, uint8_t *memory, size_t size, uint32_t base);
bool legal(const core_config *c);                            /* S1 to S7, H1 to H6 */
bool clashes(const core_regions *r, unsigned k);             /* H6 broken by region k and an earlier one */
bool allows(const core_config *c, uint8_t vm, uint32_t address, uint32_t length, uint8_t way);   /* H8 to H11 */
bool granted(const core_regions *r, uint8_t vm, uint32_t address, uint32_t length, uint8_t way);   /* the same where all is known */

/* image.c */
enum { LONGEST_IMAGE = 1036 };                               /* S9 */
core_begun read_image(const uint8_t *b, size_t n);           /* I1 to I10, I13 to I15 */
uint8_t write_image(const core_config *c, uint8_t *b, size_t room, size_t *size); /* I11, I12: the refusal */

/* log.c */
enum { LONGEST_LOG = 60000 };                                /* S9 */
enum { IMAGE_ROOM = 4096, LOG_ROOM = 65536 };                /* as much of a file as is read: more than decides */
size_t decode(const uint8_t *b, size_t n, core_input *e);    /* the width of the record in front; 0: a Copy, cut or unknown (L4) */
size_t copy_width(const uint8_t *b, size_t n);               /* the same where it is a Copy; 0: it is none, or cut */
core_answer run_copy(core_state *c, const uint8_t *record, uint8_t *memory);    /* it happens, in the window of a log (L6) */
int read_file(const char *name, uint8_t *b, size_t room);    /* the bytes read; -1: does not open */
size_t read_all(int file, uint8_t *b, size_t room);
void write_all(const uint8_t *b, size_t n);

/* text.c */
uint8_t *put_text(uint8_t *p, const char *s);
uint8_t *put_number(uint8_t *p, uint32_t n);                 /* decimal */
uint8_t *put_answer(uint8_t *p, uint32_t number, const core_answer *a);            /* N3, N4 */
uint8_t *put_refused(uint8_t *p, uint8_t fault, size_t offset);                    /* N5 */
uint8_t *put_state(uint8_t *p, const core_answer *a, const core_state *c);         /* N9 */
uint8_t *put_image(uint8_t *p, const uint8_t *b, size_t n);                        /* N10 */
uint8_t *put_window(uint8_t *p, const uint8_t *memory);                            /* N27 */

/* replay.c */
/* N1 to N9, and where there is a memory N26 to N28 */
void print_run(const uint8_t *image, size_t m, const uint8_t *log, size_t n, bool states, uint8_t *memory);
void run_files(bool states, uint8_t *memory);

#endif
