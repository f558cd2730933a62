/* FUN on a controller: a rule comes as a record, is accepted once, and is then run on the sensors' readings.

   Nothing is allocated and nothing is kept but what is lent here. Every call tells by its reply whether it was done; a call
   that was refused has changed nothing, but for what a trial says of itself.

   What C owes, and nothing checks:
   - a pointer is null or leads to memory of the kind and count that the call names, aligned as its type is, and no
     other thread or interrupt works with that memory during the call;
   - two arguments of one call do not overlap, unless both are const;
   - a place is made by its fun_.._new before any other call gets it, and between calls C neither writes nor copies it;
   - cells belong to their run place from fun_run_new on.
   What C gets wrong and is told: a null pointer, also beside a count of 0 (41), a run place in the wrong state (42, 43), and
   any count, buffer, record or text that does not do (1 to 59).

   The archive is for 64-bit processors, x86-64 and aarch64. docs/FIRMWARE.md has how to link, the loop, and the memory. */
#ifndef FUN_H
#define FUN_H

#include <stddef.h>
#include <stdint.h>

#ifdef __cplusplus
extern "C" {
#endif

/* ---- what is lent */

/* Bytes of a rule, of a run with its rule, of a names book and of a cell; the functions tell what the archive has. */
#define FUN_RULE_SIZE 4112
#define FUN_RUN_SIZE 7288
#define FUN_BOOK_SIZE 328
#define FUN_CELL_SIZE 16
size_t fun_rule_size(void);
size_t fun_run_size(void);
size_t fun_book_size(void);
size_t fun_cell_size(void);

struct fun_rule { uint64_t opaque[FUN_RULE_SIZE / 8]; };
struct fun_run { uint64_t opaque[FUN_RUN_SIZE / 8]; };
struct fun_book { uint64_t opaque[FUN_BOOK_SIZE / 8]; };
struct fun_cell { uint64_t opaque[FUN_CELL_SIZE / 8]; };

/* Limits: nodes of a rule, readings, bytes of a record and of a text, bytes of a reading's name, cells that count, steps that may
   be granted from a start or a rewind on. */
#define FUN_MOST_NODES 512
#define FUN_MOST_READINGS 8
#define FUN_MOST_RECORD 2564
#define FUN_MOST_TEXT 4096
#define FUN_MOST_NAME 32
#define FUN_MOST_CELLS 65535
#define FUN_MOST_STEPS 1000000000

/* Entries of each of the two work tables, for a rule of so many nodes. */
#define FUN_TABLE(nodes) (3 * (nodes) + 2)

/* ---- what is told */

/* What a call replies. Where nothing is refused, refusal, layer and place are 0, and count is what the call answers. */
struct fun_reply {
    uint32_t refusal; /* the number: 1 to 12 and 20 to 22 and 51 to 59 as everywhere, 41 to 43 below */
    uint32_t layer;   /* what refused */
    size_t place;     /* in the text, in the record, or a node; else 0 */
    size_t count;     /* bytes of a record, entries of a type, or cells */
};

/* Layers. */
#define FUN_TEXT 1
#define FUN_RULE 2
#define FUN_RUN 3
#define FUN_CALL 4

/* Refusals of a call that does not fit. */
#define FUN_NULL 41   /* a pointer is null */
#define FUN_CLOSED 42 /* no run is open in the run place */
#define FUN_OPEN 43   /* a run is open in the run place */

/* What a run tells: its count of steps and its state. */
struct fun_report {
    uint32_t count;
    uint32_t state;
    int32_t value; /* of a number; 1 or 0 of a truth; else 0 */
    uint32_t node; /* of a function, of range, of no store and of no stack; else 0 */
};

/* States. Only a number and a truth come with a value. */
#define FUN_NO_RUN 0
#define FUN_WAITING 1
#define FUN_NUMBER 2
#define FUN_TRUTH 3
#define FUN_FUNCTION 4
#define FUN_RANGE 5
#define FUN_NO_STORE 6
#define FUN_NO_STACK 7

/* What a trial came to: its first refusal, or a reply of 0 with what compile, accept and ask answered. */
struct fun_trial {
    struct fun_reply reply;
    size_t bytes;   /* of the record */
    size_t entries; /* of the type answer */
    struct fun_report report;
};

/* ---- a rule */

/* Puts the rule `0` into the place, whatever stands there. */
struct fun_reply fun_rule_new(struct fun_rule *rule);

/* Accepts a record: the rule is in the place, and count entries of its type are at the front of types. Refused (1 to 12), the
   place keeps its earlier rule. The two tables are for the work, and are wiped. */
struct fun_reply fun_accept(struct fun_rule *rule, const uint8_t *record, size_t count, uint16_t *first,
                            size_t first_count, uint16_t *second, size_t second_count, uint16_t *types,
                            size_t types_count);

/* ---- a run */

/* Makes a run place over these cells, which it keeps; no run is open in it. */
struct fun_reply fun_run_new(struct fun_run *run, struct fun_cell *cells, size_t count);

/* Starts the place's rule, with all readings 0. The rule is in the run then, and the rule place is new. Refused where a run is
   open (43). */
struct fun_reply fun_start(struct fun_run *run, struct fun_rule *rule);

/* Begins anew, with these readings. Refused where they are not as many as the rule's (20), or no run is open (42). */
struct fun_reply fun_rewind(struct fun_run *run, const int32_t *readings, size_t count);

/* Does so many steps, or as many as there are. Refused where the run does not wait (21), where steps is not from 1 to
   what may still be granted (22), or no run is open (42). */
struct fun_reply fun_grant(struct fun_run *run, uint32_t steps);

/* Tells the count and the state. */
struct fun_report fun_ask(struct fun_run *run);

/* Ends the run: its rule is in the rule place, in place of what stood there. Refused where no run is open (42). */
struct fun_reply fun_close(struct fun_run *run, struct fun_rule *rule);

/* Answers how many cells the last run left free. Refused while a run is open (43). */
struct fun_reply fun_free(struct fun_run *run);

/* ---- a text */

/* Puts an empty names book into the place, whatever stands there. */
struct fun_reply fun_book_new(struct fun_book *book);

/* Adds the name of the next reading. Refused (53), the book is as it was. */
struct fun_reply fun_book_add(struct fun_book *book, const uint8_t *name, size_t count);

/* Compiles a text: count bytes of its record are at the front of record. Refused (51 to 59), the buffer is as it was. */
struct fun_reply fun_compile(struct fun_book *book, const uint8_t *text, size_t count, uint8_t *record, size_t room);

/* Does all of it in one call: compiles the text, accepts its record, starts the rule over the cells of the run place, rewinds it with the
   readings, grants the steps once where it waits, asks and closes. The first refusal (also 20 and 22, and 43 where a run is open)
   ends it, and its layer says what refused; buffers, tables and places are then as the calls so far leave them. A rule that was
   accepted is in the rule place afterwards. */
struct fun_trial fun_trial(struct fun_run *run, struct fun_rule *rule, struct fun_book *book, const uint8_t *text,
                           size_t text_count, uint8_t *record, size_t room, uint16_t *first, size_t first_count,
                           uint16_t *second, size_t second_count, uint16_t *types, size_t types_count,
                           const int32_t *readings, size_t count, uint32_t steps);

/* ---- refusals */

/* Writes what a refusal means to the front of text, as much as there is room for, with no 0 behind it, and answers how many bytes it
   has in all: 0 where there is no such refusal, or text is null. */
size_t fun_explain(uint32_t refusal, uint8_t *text, size_t count);

#ifdef __cplusplus
}
#endif

#endif
